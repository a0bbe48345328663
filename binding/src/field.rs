//! A field that was read, with its trust in its type.

use crate::ffi;
use crate::kind::Kind;
use crate::place::{PacketOffset, PlaintextsOffset};
use crate::reading::Tables;
use crate::reference_ids::{ReferenceIdRequest, ReferenceIdResponse};
use crate::refusal::Refusal;
use crate::version::ExtensionHeaderVersion;
use core::fmt;
use core::hash::Hash;
use core::marker::PhantomData;

/// What a field says (ntp-proto's `ExtensionField`). Padding is read as `Unknown`, as ntp-proto does.
#[derive(Copy, Clone, Debug, PartialEq, Eq, Hash)]
pub enum ExtensionField<'a> {
    /// The bytes by which a client knows the response to its request.
    UniqueIdentifier(&'a [u8]),
    /// A cookie.
    NtsCookie(&'a [u8]),
    /// Room for a cookie in the response.
    NtsCookiePlaceholder {
        /// How many bytes that cookie may have.
        cookie_length: u16,
    },
    /// A sealed field that was not opened.
    InvalidNtsEncryptedField,
    /// The name of the draft that the sender follows: bytes below 128. Nothing is trimmed.
    DraftIdentification(&'a [u8]),
    /// A request for a part of the server's filter.
    ReferenceIdRequest(ReferenceIdRequest),
    /// A part of the server's filter.
    ReferenceIdResponse(ReferenceIdResponse<'a>),
    /// A field of another type.
    Unknown {
        /// Its type.
        type_id: u16,
        /// Its message.
        data: &'a [u8],
    },
}

/// The field stands before a sealed field that was opened: its bytes are as the sender sealed them.
#[derive(Copy, Clone, Debug, PartialEq, Eq, Hash)]
pub enum Authenticated {}

/// Nothing vouches for the field.
#[derive(Copy, Clone, Debug, PartialEq, Eq, Hash)]
pub enum Untrusted {}

/// The field was inside a sealed field that was opened.
#[derive(Copy, Clone, Debug, PartialEq, Eq, Hash)]
pub enum Encrypted {}

/// How far a field is to be trusted: [`Authenticated`], [`Untrusted`] or [`Encrypted`], and nothing else.
pub trait Trust: list::List + Copy + fmt::Debug + Eq + Hash + 'static {}

impl Trust for Authenticated {}
impl Trust for Untrusted {}
impl Trust for Encrypted {}

/// Which list a trust class stands for. The module is private, so that nobody adds a class.
pub(crate) mod list {
    use super::{Authenticated, Encrypted, Tables, Untrusted, ffi};

    pub trait List {
        /// What `Debug` calls a field of this list.
        const NAME: &'static str;

        /// How many fields the list has.
        fn count(tables: &Tables) -> usize;

        /// Field number `index` of the list; its buffer has `buffer_len` bytes.
        fn row(tables: &Tables, buffer_len: usize, version: u8, index: usize) -> ffi::NtpRawField;
    }

    impl List for Authenticated {
        const NAME: &'static str = "AuthenticatedField";

        #[inline]
        fn count(tables: &Tables) -> usize {
            tables.reply.authenticated_count
        }

        #[inline]
        fn row(tables: &Tables, buffer_len: usize, version: u8, index: usize) -> ffi::NtpRawField {
            // SAFETY: table and count are of one reading, and the reply is stored whole.
            let reply: ffi::NtpRawAuthenticatedField = unsafe {
                ffi::stored(|reply| {
                    ffi::ntp_raw_authenticated_field_128(
                        reply,
                        buffer_len,
                        version,
                        &raw const tables.outer,
                        tables.reply.authenticated_count,
                        index,
                    );
                })
            };
            reply.field
        }
    }

    impl List for Untrusted {
        const NAME: &'static str = "UntrustedField";

        #[inline]
        fn count(tables: &Tables) -> usize {
            tables.reply.untrusted_count
        }

        #[inline]
        fn row(tables: &Tables, buffer_len: usize, version: u8, index: usize) -> ffi::NtpRawField {
            // SAFETY: table and counts are of one reading, and the reply is stored whole.
            let reply: ffi::NtpRawUntrustedField = unsafe {
                ffi::stored(|reply| {
                    ffi::ntp_raw_untrusted_field_128(
                        reply,
                        buffer_len,
                        version,
                        &raw const tables.outer,
                        tables.reply.authenticated_count,
                        tables.reply.untrusted_count,
                        index,
                    );
                })
            };
            reply.field
        }
    }

    impl List for Encrypted {
        const NAME: &'static str = "EncryptedField";

        #[inline]
        fn count(tables: &Tables) -> usize {
            tables.reply.encrypted_count
        }

        #[inline]
        fn row(tables: &Tables, buffer_len: usize, version: u8, index: usize) -> ffi::NtpRawField {
            // SAFETY: table, count and starts are of one reading, and the reply is stored whole. There are at least as
            // many starts as results.
            let reply: ffi::NtpRawEncryptedField = unsafe {
                ffi::stored(|reply| {
                    ffi::ntp_raw_encrypted_field_128(
                        reply,
                        buffer_len,
                        tables.given.starts.as_ptr(),
                        tables.given.count,
                        version,
                        &raw const tables.inner,
                        tables.reply.encrypted_count,
                        index,
                    );
                })
            };
            reply.field
        }
    }
}

/// A field that was read. Its type says how far it is to be trusted, so that a function which takes a
/// `Field<'_, Authenticated>` can't be given an untrusted one.
///
/// Its bytes live as long as the packet or, of an encrypted field, as long as the buffer of plaintexts.
#[derive(Copy, Clone, PartialEq, Eq, Hash)]
pub struct Field<'a, T: Trust> {
    message: &'a [u8],
    offset: usize,
    wire_length: u32,
    type_id: u16,
    kind: Kind,
    trust: PhantomData<T>,
}

impl<'a, T: Trust> Field<'a, T> {
    /// Field number `index` of its list, in the buffer that the list was read from.
    #[inline]
    pub(crate) fn number(
        tables: &Tables,
        buffer: &'a [u8],
        version: ExtensionHeaderVersion,
        index: usize,
    ) -> Result<Self, Refusal> {
        let row = T::row(tables, buffer.len(), version.number(), index);
        Refusal::check(row.number)?;
        #[expect(
            clippy::cast_possible_truncation,
            reason = "type and length have 16 bits on the wire"
        )]
        let (type_id, wire_length) = (row.type_id as u16, row.wire_length as u32);
        Ok(Self {
            message: &buffer[row.message_offset..][..row.message_len],
            offset: row.field_offset,
            wire_length,
            type_id,
            kind: Kind::of(&row),
            trust: PhantomData,
        })
    }

    /// What the field says.
    #[must_use]
    pub fn field(&self) -> ExtensionField<'a> {
        let message = self.message;
        match self.kind {
            Kind::UniqueIdentifier => ExtensionField::UniqueIdentifier(message),
            Kind::NtsCookie => ExtensionField::NtsCookie(message),
            Kind::NtsCookiePlaceholder => ExtensionField::NtsCookiePlaceholder {
                cookie_length: self.message_len_u16(),
            },
            Kind::InvalidNtsEncryptedField => ExtensionField::InvalidNtsEncryptedField,
            Kind::DraftIdentification => ExtensionField::DraftIdentification(message),
            Kind::ReferenceIdRequest => match ReferenceIdRequest::decode(message) {
                Ok(request) => ExtensionField::ReferenceIdRequest(request),
                // Reading has refused such a packet.
                Err(_) => self.unknown(),
            },
            Kind::ReferenceIdResponse => {
                ExtensionField::ReferenceIdResponse(ReferenceIdResponse::decode(message))
            }
            Kind::Padding | Kind::Unknown => self.unknown(),
        }
    }

    const fn unknown(&self) -> ExtensionField<'a> {
        ExtensionField::Unknown {
            type_id: self.type_id,
            data: self.message,
        }
    }

    #[expect(
        clippy::cast_possible_truncation,
        reason = "a message lies in a packet or plaintext of at most 65,535 bytes"
    )]
    const fn message_len_u16(&self) -> u16 {
        self.message.len() as u16
    }

    /// Its type on the wire.
    #[must_use]
    #[inline]
    pub const fn type_id(&self) -> u16 {
        self.type_id
    }

    /// Its bytes after type and length, without padding. Those of an `InvalidNtsEncryptedField` are its nonce and
    /// ciphertext with their lengths, as they stand in the packet.
    #[must_use]
    #[inline]
    pub const fn message(&self) -> &'a [u8] {
        self.message
    }

    /// How many bytes its message has.
    #[must_use]
    #[inline]
    pub const fn message_len(&self) -> usize {
        self.message.len()
    }

    /// How many bytes it takes: type, length, message and padding.
    #[must_use]
    #[inline]
    pub const fn wire_length(&self) -> usize {
        self.wire_length as usize
    }
}

impl Field<'_, Authenticated> {
    /// Where its type and length start in the packet.
    #[must_use]
    pub const fn packet_offset(&self) -> PacketOffset {
        PacketOffset::new(self.offset)
    }
}

impl Field<'_, Untrusted> {
    /// Where its type and length start in the packet.
    #[must_use]
    pub const fn packet_offset(&self) -> PacketOffset {
        PacketOffset::new(self.offset)
    }
}

impl Field<'_, Encrypted> {
    /// Where its type and length start in the buffer of all plaintexts.
    #[must_use]
    pub const fn plaintexts_offset(&self) -> PlaintextsOffset {
        PlaintextsOffset::new(self.offset)
    }
}

impl<T: Trust> fmt::Debug for Field<'_, T> {
    fn fmt(&self, f: &mut fmt::Formatter<'_>) -> fmt::Result {
        f.debug_struct(T::NAME)
            .field("offset", &self.offset)
            .field("wire_length", &self.wire_length)
            .field("field", &self.field())
            .finish_non_exhaustive()
    }
}
