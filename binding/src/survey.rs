//! The survey: which fields of a packet are sealed, and what each is opened over.

use crate::ffi;
use crate::packet::Packet;
use crate::place::PacketOffset;
use crate::refusal::{Fault, Refusal};
use core::fmt;
use core::iter::FusedIterator;

/// The table that a survey fills. It can be used again for the next packet.
#[derive(Clone)]
pub struct SealTable(ffi::SealTable);

impl SealTable {
    /// A blank table.
    #[must_use]
    pub const fn new() -> Self {
        Self(ffi::SealTable::BLANK)
    }
}

impl Default for SealTable {
    fn default() -> Self {
        Self::new()
    }
}

impl fmt::Debug for SealTable {
    fn fmt(&self, f: &mut fmt::Formatter<'_>) -> fmt::Result {
        f.debug_struct("SealTable").finish_non_exhaustive()
    }
}

/// A sealed field: what is to be opened, and over which bytes. Only a survey makes one.
#[derive(Copy, Clone, PartialEq, Eq, Hash)]
pub struct Sealed<'packet> {
    packet: Packet<'packet>,
    nonce: &'packet [u8],
    ciphertext: &'packet [u8],
    associated_data: &'packet [u8],
    index: usize,
}

impl<'packet> Sealed<'packet> {
    /// All bytes of the packet before the field, over which it is opened.
    #[must_use]
    #[inline]
    pub const fn associated_data(&self) -> &'packet [u8] {
        self.associated_data
    }

    /// Its nonce.
    #[must_use]
    #[inline]
    pub const fn nonce(&self) -> &'packet [u8] {
        self.nonce
    }

    /// Its ciphertext.
    #[must_use]
    #[inline]
    pub const fn ciphertext(&self) -> &'packet [u8] {
        self.ciphertext
    }

    /// Its number among the sealed fields of the packet, from 0 on.
    #[must_use]
    #[inline]
    pub const fn index(&self) -> usize {
        self.index
    }

    /// Where its type and length start in the packet.
    #[must_use]
    #[inline]
    pub const fn packet_offset(&self) -> PacketOffset {
        PacketOffset::new(self.associated_data.len())
    }

    pub(crate) const fn packet(&self) -> &Packet<'packet> {
        &self.packet
    }
}

impl fmt::Debug for Sealed<'_> {
    fn fmt(&self, f: &mut fmt::Formatter<'_>) -> fmt::Result {
        f.debug_struct("Sealed")
            .field("index", &self.index)
            .field("packet_offset", &self.packet_offset())
            .field("nonce", &self.nonce)
            .field("ciphertext", &self.ciphertext)
            .finish_non_exhaustive()
    }
}

/// What a survey found: the sealed fields of a packet, up to the first fault if there is one.
#[derive(Copy, Clone)]
#[must_use = "a sealed field that no result is added for is refused with 9"]
pub struct Survey<'packet, 'table> {
    packet: Packet<'packet>,
    table: &'table ffi::SealTable,
    seal_count: usize,
    fault: Option<Fault>,
}

/// Lists the sealed fields of a packet.
///
/// After a fault the fields before it are listed. A host may go on all the same: reading refuses the packet for this
/// fault, or for an earlier one.
#[inline]
pub fn survey<'packet, 'table>(
    packet: Packet<'packet>,
    table: &'table mut SealTable,
) -> Survey<'packet, 'table> {
    let bytes = packet.bytes();
    // SAFETY: the pointers are of a slice, with its length, and of a table; the reply is stored whole.
    let reply: ffi::NtpRawSurvey = unsafe {
        ffi::stored(|reply| {
            ffi::ntp_raw_survey_128(
                reply,
                bytes.as_ptr(),
                bytes.len(),
                packet.header_size(),
                packet.version().number(),
                &raw mut table.0,
            );
        })
    };
    let fault = Refusal::check(reply.number).err().map(|refusal| Fault {
        refusal,
        field_offset: PacketOffset::new(reply.field_offset),
    });
    Survey {
        packet,
        table: &table.0,
        seal_count: reply.seal_count,
        fault,
    }
}

impl<'packet, 'table> Survey<'packet, 'table> {
    /// The packet.
    #[must_use]
    #[inline]
    pub const fn packet(&self) -> Packet<'packet> {
        self.packet
    }

    /// What ended the survey before the packet's end, if anything did.
    #[must_use]
    pub const fn fault(&self) -> Option<Fault> {
        self.fault
    }

    /// How many sealed fields it found.
    #[must_use]
    #[inline]
    pub const fn seal_count(&self) -> usize {
        self.seal_count
    }

    /// The sealed fields, in the order of the packet.
    #[inline]
    pub const fn iter(&self) -> SealedFields<'packet, 'table> {
        SealedFields {
            packet: self.packet,
            table: self.table,
            next: 0,
            end: self.seal_count,
        }
    }
}

impl fmt::Debug for Survey<'_, '_> {
    fn fmt(&self, f: &mut fmt::Formatter<'_>) -> fmt::Result {
        f.debug_struct("Survey")
            .field("fault", &self.fault)
            .field("sealed", &self.iter())
            .finish_non_exhaustive()
    }
}

impl<'packet, 'table> IntoIterator for &Survey<'packet, 'table> {
    type Item = Sealed<'packet>;
    type IntoIter = SealedFields<'packet, 'table>;

    #[inline]
    fn into_iter(self) -> Self::IntoIter {
        self.iter()
    }
}

/// The sealed fields of a packet, in the order of the packet.
#[derive(Clone)]
#[must_use = "iterators do nothing unless they are used"]
pub struct SealedFields<'packet, 'table> {
    packet: Packet<'packet>,
    table: &'table ffi::SealTable,
    next: usize,
    end: usize,
}

impl<'packet> SealedFields<'packet, '_> {
    /// Sealed field number `index` of the packet.
    #[expect(
        clippy::inline_always,
        reason = "its reply is eleven words, and going through memory doubles what the binding costs"
    )]
    #[inline(always)]
    fn number(&self, index: usize) -> Result<Sealed<'packet>, Refusal> {
        let packet = self.packet.bytes();
        // SAFETY: the table is of a survey of this packet, and the reply is stored whole.
        let seal: ffi::NtpRawSeal = unsafe {
            ffi::stored(|reply| {
                ffi::ntp_raw_seal_128(reply, packet.len(), self.table, self.end, index);
            })
        };
        Refusal::check(seal.number)?;
        Ok(Sealed {
            packet: self.packet,
            nonce: &packet[seal.nonce_offset..][..seal.nonce_len],
            ciphertext: &packet[seal.ciphertext_offset..][..seal.ciphertext_len],
            associated_data: &packet[..seal.associated_data_len],
            index,
        })
    }
}

impl<'packet> Iterator for SealedFields<'packet, '_> {
    type Item = Sealed<'packet>;

    #[inline]
    fn next(&mut self) -> Option<Self::Item> {
        if self.next >= self.end {
            return None;
        }
        let sealed = self.number(self.next).ok();
        self.next += 1;
        sealed
    }

    #[inline]
    fn size_hint(&self) -> (usize, Option<usize>) {
        let left = self.end - self.next;
        (left, Some(left))
    }
}

impl ExactSizeIterator for SealedFields<'_, '_> {}

impl FusedIterator for SealedFields<'_, '_> {}

impl fmt::Debug for SealedFields<'_, '_> {
    fn fmt(&self, f: &mut fmt::Formatter<'_>) -> fmt::Result {
        f.debug_list().entries(self.clone()).finish()
    }
}
