//! What stands in a journal, and what can be appended to one.

use crate::ffi;
use crate::reading::{ExtensionFieldData, InvalidNtsExtensionField, ReadError};
use crate::refusal::Refusal;
use crate::version::HEADER_SIZE;
use core::fmt;
use core::iter::FusedIterator;

/// How many bytes the image of a journal may have.
pub const JOURNAL_LONGEST_IMAGE: usize = 32_768;

/// How many bytes the body of a read has.
const READ_BODY: usize = 4;

/// How many bytes of an entry follow its body: the end byte.
const AFTER_BODY: usize = 1;

/// What an entry of a journal is about.
#[derive(Copy, Clone, Debug, PartialEq, Eq, Hash, PartialOrd, Ord)]
#[repr(u16)]
pub enum JournalKind {
    /// A packet was read.
    Read = 1,
    /// The header of a packet.
    Header = 2,
}

impl JournalKind {
    /// Its number in the image.
    #[must_use]
    pub const fn number(self) -> u16 {
        self as u16
    }
}

/// What an entry says.
#[derive(Copy, Clone, Debug, PartialEq, Eq, Hash)]
pub enum Entry<'image> {
    /// A packet was read, with this answer.
    Read {
        /// 0 if it was accepted, else the number of the refusal: [`Refusal::from_number`].
        number: u8,
        /// How many authenticated fields it had.
        authenticated_count: u8,
        /// How many untrusted fields it had.
        untrusted_count: u8,
        /// How many encrypted fields it had.
        encrypted_count: u8,
    },
    /// The header of a packet, as it came.
    Header(&'image [u8; HEADER_SIZE]),
}

/// An entry that stands in the image of a journal. Its body is a part of the image, and no copy.
#[derive(Copy, Clone, Debug, PartialEq, Eq, Hash)]
pub struct JournalEntry<'image> {
    entry_offset: usize,
    body: &'image [u8],
    entry: Entry<'image>,
}

impl<'image> JournalEntry<'image> {
    /// The entry that stands at `offset`, if one does, and where it ends.
    fn at(image: &'image [u8], offset: usize) -> Option<(Self, usize)> {
        let rest = image.get(offset..)?;
        // SAFETY: the pointer is of a slice, with its length, and the reply is stored whole.
        let reply: ffi::NtpRawJournalEntry = unsafe {
            ffi::stored(|reply| ffi::ntp_raw_journal_entry(reply, rest.as_ptr(), rest.len(), 0))
        };
        Refusal::check(reply.number).ok()?;
        let body_end = reply.body_offset + reply.body_len;
        let body = &rest[reply.body_offset..body_end];
        let entry = Self {
            entry_offset: offset,
            body,
            entry: Entry::of(reply.kind, body)?,
        };
        Some((entry, offset + body_end + AFTER_BODY))
    }

    /// How many bytes of the image stand before the entry.
    #[must_use]
    pub const fn entry_offset(&self) -> usize {
        self.entry_offset
    }

    /// What it is about.
    #[must_use]
    pub const fn kind(&self) -> JournalKind {
        match self.entry {
            Entry::Read { .. } => JournalKind::Read,
            Entry::Header(_) => JournalKind::Header,
        }
    }

    /// Its body, as it stands in the image.
    #[must_use]
    pub const fn body(&self) -> &'image [u8] {
        self.body
    }

    /// What it says.
    #[must_use]
    pub const fn entry(&self) -> Entry<'image> {
        self.entry
    }
}

impl<'image> Entry<'image> {
    /// An entry of a kind, by its number. The library shows no other kinds, and no bodies of another size.
    fn of(kind: usize, body: &'image [u8]) -> Option<Self> {
        const READ: usize = JournalKind::Read as usize;
        const HEADER: usize = JournalKind::Header as usize;
        match kind {
            READ => {
                let &[
                    number,
                    authenticated_count,
                    untrusted_count,
                    encrypted_count,
                ] = <&[u8; READ_BODY]>::try_from(body).ok()?;
                Some(Self::Read {
                    number,
                    authenticated_count,
                    untrusted_count,
                    encrypted_count,
                })
            }
            HEADER => Some(Self::Header(body.try_into().ok()?)),
            _ => None,
        }
    }
}

/// The entries of an image, in the order in which they were appended. A torn tail is not among them.
///
/// [`Journal::entries`](crate::Journal::entries) returns those of a journal. An auditor, who has an image and must not
/// change it, starts here:
///
/// ```
/// use lobzhinar::{Entry, JournalEntries, JournalFound, Refusal};
///
/// // An accepted packet with one untrusted field, and an entry that was cut before its length was stored.
/// let mut image = [0xff; 64];
/// image[..9].copy_from_slice(&[9, 0, 1, 0, 0, 0, 1, 0, 0xa5]);
/// image[11..14].copy_from_slice(&[1, 0, 5]);
///
/// let mut entries = JournalEntries::of(&image)?;
/// let first = entries.next().unwrap();
/// assert_eq!((first.entry_offset(), first.body()), (0, &image[4..8]));
/// assert!(matches!(first.entry(), Entry::Read { number: 0, untrusted_count: 1, .. }));
/// assert_eq!(entries.next(), None);
///
/// let found = JournalFound::of(&image)?;
/// assert_eq!((found.entry_count, found.next_offset, found.torn_len), (1, 9, 5));
/// # Ok::<(), Refusal>(())
/// ```
#[derive(Clone)]
#[must_use = "iterators do nothing unless they are used"]
pub struct JournalEntries<'image> {
    image: &'image [u8],
    offset: usize,
}

impl<'image> JournalEntries<'image> {
    /// The entries of an image that need not be recovered.
    ///
    /// # Errors
    ///
    /// [`Refusal::PacketTooLong`] for more than 32,768 bytes.
    pub fn of(image: &'image [u8]) -> Result<Self, Refusal> {
        JournalFound::of(image)?;
        Ok(Self::in_journal(image))
    }

    /// The entries of an image that is known to be short enough.
    pub(crate) const fn in_journal(image: &'image [u8]) -> Self {
        Self { image, offset: 0 }
    }
}

impl<'image> Iterator for JournalEntries<'image> {
    type Item = JournalEntry<'image>;

    // An entry starts where the one before ends, so each is asked for as the first of the rest. Asked for by its
    // number, each would walk past all before it.
    fn next(&mut self) -> Option<Self::Item> {
        let (entry, end) = JournalEntry::at(self.image, self.offset)?;
        self.offset = end;
        Some(entry)
    }
}

impl FusedIterator for JournalEntries<'_> {}

impl fmt::Debug for JournalEntries<'_> {
    fn fmt(&self, f: &mut fmt::Formatter<'_>) -> fmt::Result {
        f.debug_list().entries(self.clone()).finish()
    }
}

/// What an image holds.
#[derive(Copy, Clone, Debug, PartialEq, Eq, Hash)]
pub struct JournalFound {
    /// How many entries.
    pub entry_count: usize,
    /// Where the last of them ends, and the next append may start.
    pub next_offset: usize,
    /// How many bytes after that place are a torn tail, up to the last one that is not blank.
    pub torn_len: usize,
}

impl JournalFound {
    /// What a blank image holds.
    pub(crate) const NOTHING: Self = Self {
        entry_count: 0,
        next_offset: 0,
        torn_len: 0,
    };

    /// Looks at an image, and changes nothing.
    ///
    /// # Errors
    ///
    /// [`Refusal::PacketTooLong`] for more than 32,768 bytes.
    pub fn of(image: &[u8]) -> Result<Self, Refusal> {
        // SAFETY: the pointer is of a slice, with its length, and the reply is stored whole.
        let reply: ffi::NtpRawJournalFound = unsafe {
            ffi::stored(|reply| ffi::ntp_raw_journal_find(reply, image.as_ptr(), image.len()))
        };
        Refusal::check(reply.number)?;
        Ok(Self {
            entry_count: reply.entry_count,
            next_offset: reply.next_offset,
            torn_len: reply.torn_len,
        })
    }
}

/// The verdict on a packet, as a journal stores it: the number of the answer, and how many fields each list has.
///
/// It is made of what the reader returned, so that no number is copied by hand. A host could make a
/// [`ReadError::Refused`] of its own, but no acceptance and no count:
///
/// ```
/// use lobzhinar::{Opening, Packet, ReadBody, Workspace, deserialize};
///
/// let mut packet = [7; 48 + 36];
/// packet[48..52].copy_from_slice(&[0x01, 0x04, 0, 36]);
/// let mut workspace = Workspace::new();
///
/// let read = deserialize(Packet::v4(&packet), &mut workspace, &mut [], |_, _, _| Opening::NoKey);
/// assert_eq!(ReadBody::of(&read).bytes(), &[0, 0, 1, 0]);
///
/// // A packet that ends inside its header is refused with 6, and has no fields.
/// let read = deserialize(Packet::v4(&packet[..40]), &mut workspace, &mut [], |_, _, _| Opening::NoKey);
/// assert_eq!(ReadBody::of(&read).bytes(), &[6, 0, 0, 0]);
/// ```
#[derive(Copy, Clone, Debug, PartialEq, Eq, Hash)]
#[must_use = "a verdict is there to be appended to a journal"]
pub struct ReadBody {
    bytes: [u8; READ_BODY],
}

// One byte holds each count.
const _: () = assert!(ffi::TABLE <= 255);

impl ReadBody {
    /// The verdict of a reading, whether the packet was accepted or not.
    pub fn of(read: &Result<ExtensionFieldData<'_, '_, '_>, ReadError<'_, '_, '_>>) -> Self {
        match read {
            Ok(data) => data.into(),
            Err(error) => error.into(),
        }
    }

    /// The body of its entry.
    #[must_use]
    pub const fn bytes(&self) -> &[u8; READ_BODY] {
        &self.bytes
    }

    fn of_reply(reply: &ffi::NtpRawRead) -> Self {
        let mut bytes = [0; READ_BODY];
        // SAFETY: the pointer is of an array, with its length, that is lent to nobody else.
        let written = unsafe {
            ffi::ntp_raw_journal_read_body(
                reply.number,
                reply.authenticated_count,
                reply.untrusted_count,
                reply.encrypted_count,
                bytes.as_mut_ptr(),
                bytes.len(),
                0,
            )
        };
        // There is room, and a reply has no number above 18 and no count above that of a table's entries.
        assert!(written.number == 0, "a verdict of four bytes");
        Self { bytes }
    }
}

/// The verdict on an accepted packet: number 0.
impl From<&ExtensionFieldData<'_, '_, '_>> for ReadBody {
    fn from(data: &ExtensionFieldData<'_, '_, '_>) -> Self {
        Self::of_reply(data.reply())
    }
}

/// The verdict on a packet of which a sealed field was not opened: number 5, with the counts of its fields.
impl From<&InvalidNtsExtensionField<'_, '_, '_>> for ReadBody {
    fn from(data: &InvalidNtsExtensionField<'_, '_, '_>) -> Self {
        Self::of_reply(data.reply())
    }
}

/// The verdict on a packet that was not accepted. One that is refused has no fields.
impl From<&ReadError<'_, '_, '_>> for ReadBody {
    fn from(error: &ReadError<'_, '_, '_>) -> Self {
        match error {
            ReadError::DecryptError(data) => data.into(),
            ReadError::Refused(fault) => Self::of_reply(&ffi::NtpRawRead {
                number: fault.refusal.number().into(),
                ..ffi::NtpRawRead::NOTHING
            }),
        }
    }
}
