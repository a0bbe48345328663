//! Reading the extension fields of a packet, once its sealed fields have results.

use crate::ffi::{self, TABLE};
use crate::field::{Authenticated, Encrypted, Field, Trust, Untrusted};
use crate::packet::Packet;
use crate::place::PacketOffset;
use crate::refusal::{Fault, Refusal};
use crate::results::{Given, Results};
use crate::version::ExtensionHeaderVersion;
use core::error::Error;
use core::fmt;
use core::iter::FusedIterator;
use core::marker::PhantomData;

/// The tables that reading fills. They can be used again for the next packet.
///
/// Only reading writes them, so that they always hold what the last reading left.
#[derive(Clone)]
pub struct Tables {
    pub(crate) outer: ffi::OuterTable,
    pub(crate) inner: ffi::InnerTable,
    /// The results with which they were read.
    pub(crate) given: Given,
    pub(crate) reply: ffi::NtpRawRead,
}

impl Tables {
    /// Blank tables.
    #[must_use]
    pub const fn new() -> Self {
        Self {
            outer: ffi::OuterTable::BLANK,
            inner: ffi::InnerTable::BLANK,
            given: Given::NONE,
            reply: ffi::NtpRawRead::NOTHING,
        }
    }
}

impl Default for Tables {
    fn default() -> Self {
        Self::new()
    }
}

impl fmt::Debug for Tables {
    fn fmt(&self, f: &mut fmt::Formatter<'_>) -> fmt::Result {
        f.debug_struct("Tables").finish_non_exhaustive()
    }
}

impl<'packet, 'plain, 'tables> Results<'packet, 'plain, 'tables> {
    /// Reads the packet of the survey that the results are for. Whatever the tables held, what is not in use is blank
    /// afterwards.
    ///
    /// # Errors
    ///
    /// A sealed field was not opened, or the packet is refused.
    #[inline]
    pub fn deserialize(
        self,
    ) -> Result<ExtensionFieldData<'packet, 'plain, 'tables>, ReadError<'packet, 'plain, 'tables>>
    {
        self.read(TABLE, TABLE)
    }

    /// The same, but it clears only the entries that the last reading into these tables left in use, which is faster.
    ///
    /// # Errors
    ///
    /// A sealed field was not opened, or the packet is refused.
    #[inline]
    pub fn deserialize_into_used_tables(
        self,
    ) -> Result<ExtensionFieldData<'packet, 'plain, 'tables>, ReadError<'packet, 'plain, 'tables>>
    {
        let last = &self.tables.reply;
        let used_outer = last.authenticated_count + last.untrusted_count;
        let used_inner = last.encrypted_count;
        self.read(used_outer, used_inner)
    }

    #[inline]
    fn read(
        self,
        used_outer: usize,
        used_inner: usize,
    ) -> Result<ExtensionFieldData<'packet, 'plain, 'tables>, ReadError<'packet, 'plain, 'tables>>
    {
        let Self {
            packet,
            plaintexts,
            tables,
            ..
        } = self;
        let bytes = packet.bytes();
        let given = &tables.given;
        // SAFETY: every pointer is of a slice or of an array at least as long as the length that it comes with, or of a
        // table. No two of the arguments that are written overlap, nor does any other.
        unsafe {
            ffi::ntp_raw_read_128(
                &raw mut tables.reply,
                bytes.as_ptr(),
                bytes.len(),
                packet.header_size(),
                packet.version().number(),
                given.verdicts.as_ptr(),
                given.count,
                given.starts.as_ptr(),
                given.count,
                given.lens.as_ptr(),
                given.count,
                plaintexts.as_ptr(),
                plaintexts.len(),
                &raw mut tables.outer,
                used_outer,
                &raw mut tables.inner,
                used_inner,
            );
        }
        let lists = Lists {
            packet,
            plaintexts,
            tables,
        };
        match Refusal::check(lists.tables.reply.number) {
            Ok(()) => Ok(ExtensionFieldData { lists }),
            Err(Refusal::DecryptError) => {
                Err(ReadError::DecryptError(InvalidNtsExtensionField { lists }))
            }
            Err(refusal) => Err(ReadError::Refused(Fault {
                refusal,
                field_offset: PacketOffset::new(lists.tables.reply.field_offset),
            })),
        }
    }
}

/// What a packet was read from, and where its fields are.
#[derive(Copy, Clone)]
struct Lists<'packet, 'plain, 'tables> {
    packet: Packet<'packet>,
    plaintexts: &'plain [u8],
    tables: &'tables Tables,
}

impl<'packet> Lists<'packet, '_, '_> {
    fn remaining_bytes(&self) -> &'packet [u8] {
        let packet = self.packet.bytes();
        &packet[packet.len() - self.tables.reply.remainder_len..]
    }
}

/// The lists of a packet have the same methods whether it is accepted or not, but not the same type.
macro_rules! with_lists {
    ($name:ident) => {
        impl<'packet, 'plain, 'tables> $name<'packet, 'plain, 'tables> {
            /// The fields before the last sealed field that was opened, in the order of the packet.
            #[inline]
            pub fn authenticated(&self) -> Fields<'packet, 'tables, Authenticated> {
                Fields::of(self.lists.packet.bytes(), &self.lists)
            }

            /// The fields that nothing vouches for, in the order of the packet.
            #[inline]
            pub fn untrusted(&self) -> Fields<'packet, 'tables, Untrusted> {
                Fields::of(self.lists.packet.bytes(), &self.lists)
            }

            /// The fields of all plaintexts, in the order of the packet.
            #[inline]
            pub fn encrypted(&self) -> Fields<'plain, 'tables, Encrypted> {
                Fields::of(self.lists.plaintexts, &self.lists)
            }

            /// Authenticated field number `index`, from 0 on.
            ///
            /// # Errors
            ///
            /// [`Refusal::CannotBeMade`] past the end of the list.
            pub fn authenticated_field(
                &self,
                index: usize,
            ) -> Result<Field<'packet, Authenticated>, Refusal> {
                self.authenticated().number(index)
            }

            /// Untrusted field number `index`, from 0 on.
            ///
            /// # Errors
            ///
            /// [`Refusal::CannotBeMade`] past the end of the list.
            pub fn untrusted_field(
                &self,
                index: usize,
            ) -> Result<Field<'packet, Untrusted>, Refusal> {
                self.untrusted().number(index)
            }

            /// Encrypted field number `index`, from 0 on.
            ///
            /// # Errors
            ///
            /// [`Refusal::CannotBeMade`] past the end of the list.
            pub fn encrypted_field(
                &self,
                index: usize,
            ) -> Result<Field<'plain, Encrypted>, Refusal> {
                self.encrypted().number(index)
            }

            /// What follows the fields: in `NTPv4` at most 24 bytes, of which [`Mac::deserialize`](crate::Mac::deserialize)
            /// says whether they are a MAC; in `NTPv5` nothing. The bytes are here either way.
            #[must_use]
            pub fn remaining_bytes(&self) -> &'packet [u8] {
                self.lists.remaining_bytes()
            }

            /// What the reader replied: a journal's entry is made of its number and counts.
            pub(crate) const fn reply(&self) -> &'tables ffi::NtpRawRead {
                &self.lists.tables.reply
            }
        }

        impl fmt::Debug for $name<'_, '_, '_> {
            fn fmt(&self, f: &mut fmt::Formatter<'_>) -> fmt::Result {
                f.debug_struct(stringify!($name))
                    .field("authenticated", &self.authenticated())
                    .field("encrypted", &self.encrypted())
                    .field("untrusted", &self.untrusted())
                    .field("remaining_bytes", &self.remaining_bytes())
                    .finish_non_exhaustive()
            }
        }
    };
}

/// The fields of an accepted packet: every sealed field of it was opened.
///
/// A packet without a sealed field is accepted too, and all of its fields are untrusted.
#[derive(Copy, Clone)]
#[must_use = "the fields of a packet are there to be used"]
pub struct ExtensionFieldData<'packet, 'plain, 'tables> {
    lists: Lists<'packet, 'plain, 'tables>,
}

with_lists!(ExtensionFieldData);

impl ExtensionFieldData<'_, '_, '_> {
    /// The number of the last sealed field, if it was opened by a server's cookie.
    #[must_use]
    pub fn cookie(&self) -> Option<usize> {
        let reply = &self.lists.tables.reply;
        (reply.has_cookie != 0).then_some(reply.cookie_seal)
    }
}

/// The fields of a packet of which a sealed field was not opened. Its untrusted fields are not to be relied on.
#[derive(Copy, Clone)]
pub struct InvalidNtsExtensionField<'packet, 'plain, 'tables> {
    lists: Lists<'packet, 'plain, 'tables>,
}

with_lists!(InvalidNtsExtensionField);

/// Why a packet was not accepted.
#[derive(Copy, Clone, Debug)]
pub enum ReadError<'packet, 'plain, 'tables> {
    /// A sealed field was not opened: number 5. Its fields are there all the same.
    DecryptError(InvalidNtsExtensionField<'packet, 'plain, 'tables>),
    /// The packet is refused for any other reason, and there are no fields.
    Refused(Fault),
}

impl ReadError<'_, '_, '_> {
    /// The number of rule 2.1.
    #[must_use]
    pub const fn number(&self) -> u8 {
        self.refusal().number()
    }

    /// Why.
    #[must_use]
    pub const fn refusal(&self) -> Refusal {
        match self {
            Self::DecryptError(_) => Refusal::DecryptError,
            Self::Refused(fault) => fault.refusal,
        }
    }
}

impl fmt::Display for ReadError<'_, '_, '_> {
    fn fmt(&self, f: &mut fmt::Formatter<'_>) -> fmt::Result {
        match self {
            Self::DecryptError(_) => Refusal::DecryptError.fmt(f),
            Self::Refused(fault) => fault.fmt(f),
        }
    }
}

impl Error for ReadError<'_, '_, '_> {}

/// So that a function without the lists in its error can end by `?`.
impl From<ReadError<'_, '_, '_>> for Refusal {
    fn from(error: ReadError<'_, '_, '_>) -> Self {
        error.refusal()
    }
}

/// Fields of one trust class, in the order of the packet. Their bytes live as long as `'bytes`: the packet or, of
/// encrypted fields, the buffer of plaintexts.
#[must_use = "iterators do nothing unless they are used"]
pub struct Fields<'bytes, 'tables, T: Trust> {
    buffer: &'bytes [u8],
    version: ExtensionHeaderVersion,
    tables: &'tables Tables,
    next: usize,
    end: usize,
    trust: PhantomData<T>,
}

impl<'bytes, 'tables, T: Trust> Fields<'bytes, 'tables, T> {
    #[inline]
    fn of(buffer: &'bytes [u8], lists: &Lists<'_, '_, 'tables>) -> Self {
        Self {
            buffer,
            version: lists.packet.version(),
            tables: lists.tables,
            next: 0,
            end: T::count(lists.tables),
            trust: PhantomData,
        }
    }

    #[inline]
    fn number(&self, index: usize) -> Result<Field<'bytes, T>, Refusal> {
        Field::number(self.tables, self.buffer, self.version, index)
    }
}

impl<T: Trust> Clone for Fields<'_, '_, T> {
    fn clone(&self) -> Self {
        Self { ..*self }
    }
}

impl<'bytes, T: Trust> Iterator for Fields<'bytes, '_, T> {
    type Item = Field<'bytes, T>;

    #[inline]
    fn next(&mut self) -> Option<Self::Item> {
        if self.next >= self.end {
            return None;
        }
        let field = self.number(self.next).ok();
        self.next += 1;
        field
    }

    #[inline]
    fn size_hint(&self) -> (usize, Option<usize>) {
        let left = self.end - self.next;
        (left, Some(left))
    }
}

impl<T: Trust> ExactSizeIterator for Fields<'_, '_, T> {}

impl<T: Trust> FusedIterator for Fields<'_, '_, T> {}

impl<T: Trust> fmt::Debug for Fields<'_, '_, T> {
    fn fmt(&self, f: &mut fmt::Formatter<'_>) -> fmt::Result {
        f.debug_list().entries(self.clone()).finish()
    }
}

#[cfg(test)]
mod tests {
    use super::Tables;
    use crate::{ExtensionHeaderVersion, Packet, Results, SealTable, survey};

    /// No reading shows the entries past the counts, but they have to be blank (rule 18.3) whichever form was used.
    #[test]
    fn entries_past_the_counts_are_blank() {
        let plain = [0x20, 1, 0, 4].repeat(9);
        let sealed = [&plain[..], &[4, 4, 0, 8, 0, 0, 0, 0]].concat();
        let faulty = [&plain[..], &[0x20, 1, 0, 3]].concat();
        let mut tables = Tables::new();
        for (bytes, inner) in [
            (&plain[..], 0),
            (&sealed, 9),
            (&plain[..8], 0),
            (&sealed, 2),
            (&faulty, 0),
            (&plain, 0),
        ] {
            let mut seals = SealTable::new();
            let packet = Packet::with_header(ExtensionHeaderVersion::V5, 0, bytes);
            let survey = survey(packet, &mut seals);
            let mut plaintexts = [0x20, 1, 0, 4].repeat(inner);
            let mut results = Results::new(&survey, &mut plaintexts, &mut tables);
            for field in &survey {
                results.opened(&field, inner * 4).unwrap();
            }
            let _ = results.deserialize_into_used_tables();
            let counts = tables.reply;
            let outer = counts.authenticated_count + counts.untrusted_count;
            assert!(
                tables.outer.entries[outer..]
                    .iter()
                    .all(|entry| *entry == 0)
            );
            let inner = counts.encrypted_count;
            assert!(
                tables.inner.entries[inner..]
                    .iter()
                    .all(|entry| *entry == 0)
            );
        }
    }
}
