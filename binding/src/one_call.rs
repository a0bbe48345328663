//! Reading in one call, for a host that has a cipher.

use crate::field::{Field, Untrusted};
use crate::packet::Packet;
use crate::place::PacketOffset;
use crate::reading::{ExtensionFieldData, ReadError, Tables};
use crate::results::{Opening, Results};
use crate::survey::{SealTable, Sealed, Survey, survey};
use core::fmt;
use core::iter::FusedIterator;

/// What [`deserialize`] works with. It can be used again for the next packet.
#[derive(Clone, Debug, Default)]
pub struct Workspace {
    seals: SealTable,
    tables: Tables,
    items: Tables,
}

impl Workspace {
    /// A blank one.
    #[must_use]
    pub const fn new() -> Self {
        Self {
            seals: SealTable::new(),
            tables: Tables::new(),
            items: Tables::new(),
        }
    }
}

/// Reads a packet, and opens its sealed fields by a closure: ntp-proto's `ExtensionFieldData::deserialize`.
///
/// For each sealed field, in the order of the packet, the closure gets
///
/// - the field: nonce, ciphertext and associated data;
/// - the items before it that no seal opened so far vouches for, as ntp-proto's `CipherProvider::get` does: a server
///   finds its cookie among them;
/// - room for the plaintext: what the earlier ones have left of `plaintexts`.
///
/// It says `Opened` only if the field is authentic over its associated data.
///
/// # Errors
///
/// A sealed field was not opened, or the packet is refused. A plaintext that is longer than its room is refused with
/// 10.
#[inline]
pub fn deserialize<'packet, 'plain, 'work>(
    packet: Packet<'packet>,
    workspace: &'work mut Workspace,
    plaintexts: &'plain mut [u8],
    mut open: impl FnMut(Sealed<'packet>, Context<'packet, '_>, &mut [u8]) -> Opening,
) -> Result<ExtensionFieldData<'packet, 'plain, 'work>, ReadError<'packet, 'plain, 'work>> {
    // Reading tells a fault of the survey again, or an earlier one.
    let survey = survey(packet, &mut workspace.seals);
    let mut results = Results::new(&survey, plaintexts, &mut workspace.tables);
    let mut progress = Progress::default();
    for sealed in &survey {
        let context = Context {
            survey: &survey,
            items: &mut workspace.items,
            progress: &mut progress,
            next: None,
            end: sealed.packet_offset(),
        };
        let opening = open(sealed, context, results.room());
        // It is its turn: these are all sealed fields of the survey, in order.
        let _ = results.add(&sealed, opening);
        if opening.is_opened() {
            progress.last_opened = Some(sealed.packet_offset());
        }
    }
    results.deserialize()
}

/// The items before a sealed field that no seal opened so far vouches for, in the order of the packet. A sealed field
/// that was not opened is among them as `InvalidNtsEncryptedField`.
///
/// There are none if the packet has a fault anywhere, by which it is refused in the end. There are none either if it
/// has more items than a table has entries (see [`TooManyFields`](crate::Refusal::TooManyFields)), each sealed field
/// counted as one.
#[must_use = "iterators do nothing unless they are used"]
pub struct Context<'packet, 'items> {
    survey: &'items Survey<'packet, 'items>,
    items: &'items mut Tables,
    progress: &'items mut Progress,
    /// The number of the next item, once the items are read.
    next: Option<usize>,
    end: PacketOffset,
}

/// How far the items of a packet were used.
#[derive(Default)]
struct Progress {
    is_read: bool,
    /// The number of the first item after the last sealed field that was opened, or of an earlier one.
    first: usize,
    last_opened: Option<PacketOffset>,
}

impl<'packet> Context<'packet, '_> {
    /// Item number `index` of the whole packet.
    fn item(&self, index: usize) -> Option<Field<'packet, Untrusted>> {
        let packet = self.survey.packet();
        Field::number(self.items, packet.bytes(), packet.version(), index).ok()
    }

    /// Reads all items of the packet, as untrusted ones: with "no key" for every sealed field. A host that does not
    /// look at a context does not pay for it.
    fn read(&mut self) {
        let mut results = Results::new(self.survey, &mut [], self.items);
        for sealed in self.survey {
            let _ = results.no_key(&sealed);
        }
        // A fault leaves the tables without items.
        let _ = results.deserialize();
        self.progress.is_read = true;
    }

    /// The number of the first item of this context, if it has any.
    fn first(&mut self) -> usize {
        if !self.progress.is_read {
            self.read();
        }
        while let Some(item) = self.item(self.progress.first) {
            if Some(item.packet_offset()) > self.progress.last_opened {
                break;
            }
            self.progress.first += 1;
        }
        self.progress.first
    }
}

impl<'packet> Iterator for Context<'packet, '_> {
    type Item = Field<'packet, Untrusted>;

    fn next(&mut self) -> Option<Self::Item> {
        let index = match self.next {
            Some(index) => index,
            None => self.first(),
        };
        self.next = Some(index);
        let item = self.item(index)?;
        if item.packet_offset() >= self.end {
            return None;
        }
        self.next = Some(index + 1);
        Some(item)
    }
}

impl FusedIterator for Context<'_, '_> {}

impl fmt::Debug for Context<'_, '_> {
    fn fmt(&self, f: &mut fmt::Formatter<'_>) -> fmt::Result {
        f.debug_struct("Context")
            .field("after", &self.progress.last_opened)
            .field("before", &self.end)
            .finish_non_exhaustive()
    }
}
