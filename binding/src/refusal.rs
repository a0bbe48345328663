//! Refusals, by the numbers of rule 2.1 in docs/RULES.md.

use crate::place::PacketOffset;
use core::error::Error;
use core::fmt;

/// Why something is refused.
#[derive(Copy, Clone, Debug, PartialEq, Eq, Hash, PartialOrd, Ord)]
#[repr(u8)]
pub enum Refusal {
    /// A length is wrong.
    IncorrectLength = 1,
    /// A cookie placeholder is not zero.
    MalformedCookiePlaceholder = 2,
    /// A sealed field lies inside a sealed field.
    MalformedNtsExtensionFields = 3,
    /// A draft identification has a byte of 128 or more.
    InvalidDraftIdentification = 4,
    /// A sealed field was not opened.
    DecryptError = 5,
    /// The header ends past the packet.
    HeaderPastEnd = 6,
    /// The packet has more than 65,535 bytes, or the image of a journal has more than 32,768.
    PacketTooLong = 7,
    /// A table has no room for a further field: it has 128 entries.
    TooManyFields = 8,
    /// A sealed field has no opening result.
    NoResult = 9,
    /// An opening result is not well formed.
    MalformedResult = 10,
    /// The version is not read.
    InvalidVersion = 11,
    /// The mode is neither request nor response.
    MalformedMode = 12,
    /// The timescale is none of the four.
    MalformedTimescale = 13,
    /// A flag has no meaning.
    InvalidFlags = 14,
    /// A field is too long to be written.
    FieldTooLong = 15,
    /// There is no room in the output, or in the image of a journal.
    NoRoom = 16,
    /// Fields need a cipher, and there is none.
    NoCipher = 17,
    /// There is no such field, or a field, request, response, MAC, header or entry of a journal can't be made or
    /// written.
    CannotBeMade = 18,
}

const ALL: [Refusal; 18] = [
    Refusal::IncorrectLength,
    Refusal::MalformedCookiePlaceholder,
    Refusal::MalformedNtsExtensionFields,
    Refusal::InvalidDraftIdentification,
    Refusal::DecryptError,
    Refusal::HeaderPastEnd,
    Refusal::PacketTooLong,
    Refusal::TooManyFields,
    Refusal::NoResult,
    Refusal::MalformedResult,
    Refusal::InvalidVersion,
    Refusal::MalformedMode,
    Refusal::MalformedTimescale,
    Refusal::InvalidFlags,
    Refusal::FieldTooLong,
    Refusal::NoRoom,
    Refusal::NoCipher,
    Refusal::CannotBeMade,
];

impl Refusal {
    /// Its number in rule 2.1.
    #[must_use]
    pub const fn number(self) -> u8 {
        self as u8
    }

    /// The refusal of a number in rule 2.1, as a journal stores it; none for 0, and for a number that is not there.
    #[must_use]
    pub fn from_number(number: u8) -> Option<Self> {
        ALL.into_iter().find(|refusal| refusal.number() == number)
    }

    /// What a reply's number says: nothing for 0.
    #[inline]
    pub(crate) fn check(number: usize) -> Result<(), Self> {
        match number.checked_sub(1) {
            None => Ok(()),
            Some(place) => Err(ALL[place]),
        }
    }
}

impl fmt::Display for Refusal {
    fn fmt(&self, f: &mut fmt::Formatter<'_>) -> fmt::Result {
        f.write_str(match self {
            Self::IncorrectLength => "a length is wrong",
            Self::MalformedCookiePlaceholder => "a cookie placeholder is not zero",
            Self::MalformedNtsExtensionFields => "a sealed field lies inside a sealed field",
            Self::InvalidDraftIdentification => "a draft identification is not ASCII",
            Self::DecryptError => "a sealed field was not opened",
            Self::HeaderPastEnd => "the header ends past the packet",
            Self::PacketTooLong => {
                "the packet has more than 65,535 bytes, or the image of a journal more than 32,768"
            }
            Self::TooManyFields => "a table has no room for a further field",
            Self::NoResult => "a sealed field has no opening result",
            Self::MalformedResult => "an opening result is not well formed",
            Self::InvalidVersion => "the version is not read",
            Self::MalformedMode => "the mode is neither request nor response",
            Self::MalformedTimescale => "the timescale is none of the four",
            Self::InvalidFlags => "a flag has no meaning",
            Self::FieldTooLong => "a field is too long to be written",
            Self::NoRoom => "there is no room",
            Self::NoCipher => "fields need a cipher, and there is none",
            Self::CannotBeMade => "there is no such thing, or it can't be made",
        })
    }
}

impl Error for Refusal {}

/// Why a packet is refused, and where.
#[derive(Copy, Clone, Debug, PartialEq, Eq, Hash)]
pub struct Fault {
    /// Why.
    pub refusal: Refusal,
    /// Where the outer field at fault starts. For a fault inside a plaintext that is the sealed field.
    pub field_offset: PacketOffset,
}

impl fmt::Display for Fault {
    fn fmt(&self, f: &mut fmt::Formatter<'_>) -> fmt::Result {
        write!(f, "{}, at byte {}", self.refusal, self.field_offset)
    }
}

impl Error for Fault {}

impl From<Fault> for Refusal {
    fn from(fault: Fault) -> Self {
        fault.refusal
    }
}
