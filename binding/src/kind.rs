//! Kinds of fields, by the numbers of rule 20.2, which are the same for reading and writing.

use crate::ffi;

/// The kind of a field. It has 16 bits so that a field has no padding: a struct with padding is copied slower.
#[derive(Copy, Clone, Debug, PartialEq, Eq, Hash)]
#[repr(u16)]
pub(crate) enum Kind {
    Unknown = 0,
    UniqueIdentifier = 1,
    NtsCookie = 2,
    NtsCookiePlaceholder = 3,
    DraftIdentification = 4,
    Padding = 5,
    ReferenceIdRequest = 6,
    ReferenceIdResponse = 7,
    InvalidNtsEncryptedField = 8,
}

impl Kind {
    /// The kind of a field that was read. Padding is read as Unknown, and a sealed field is in no list.
    #[inline]
    pub(crate) const fn of(row: &ffi::NtpRawField) -> Self {
        match row.kind {
            1 => Self::UniqueIdentifier,
            2 => Self::NtsCookie,
            3 => Self::NtsCookiePlaceholder,
            4 => Self::DraftIdentification,
            6 => Self::ReferenceIdRequest,
            7 => Self::ReferenceIdResponse,
            8 => Self::InvalidNtsEncryptedField,
            _ => Self::Unknown,
        }
    }
}
