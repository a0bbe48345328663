//! A cut that a gateway proposes: which fields a packet has, and where.

use crate::ffi;
use crate::packet::Packet;
use core::mem::offset_of;

/// A field as a gateway cuts it. Both are numbers of bytes, and may be any.
// The library reads a slice of these as it stands, so this is its struct.
#[derive(Copy, Clone, Debug, PartialEq, Eq, Hash)]
#[repr(C)]
pub struct Cut {
    /// Where the field begins: how many bytes of the packet are before it, those of the header included.
    pub field_offset: usize,
    /// How many bytes the field takes: type, length, message and, in `NTPv5`, padding.
    pub wire_length: usize,
}

const _: () = assert!(
    size_of::<Cut>() == 16
        && align_of::<Cut>() == 8
        && offset_of!(Cut, field_offset) == 0
        && offset_of!(Cut, wire_length) == 8,
    "the library has two numbers of 64 bits for a cut, the offset first"
);

impl Packet<'_> {
    /// Whether a gateway's table, an entry for each field in the order of the packet, is the cut of this packet by the
    /// layout rules. A packet has at most one cut.
    ///
    /// A sealed field is one entry, whether or not it can be opened; the fields inside it are not listed. So the lists
    /// that reading returns are no cut where a sealed field was opened.
    /// The remainder of `NTPv4`, at most 24 bytes, is not listed. So the table is empty if at most 24 bytes follow the
    /// header in `NTPv4`, or none in `NTPv5`. A packet of more than 65,535 bytes, or with a header past its end, has no
    /// cut.
    ///
    /// A yes says nothing of trust: no key was used, and a forged packet has a cut too. It says nothing of contents
    /// either: [`survey`](crate::survey()) and [`deserialize`](crate::deserialize) may refuse the packet, for the bytes
    /// of a field, for the lengths inside a sealed field, or for more fields than their tables hold. The header's bytes
    /// are not looked at; the version is the packet's. So read the packet after a yes, and take fields from what reading
    /// returns, which says which are authenticated, and never from the proposed table.
    ///
    /// The first entry that is wrong ends it: however long the table is, at most an entry for each field of the packet
    /// and one more are looked at.
    ///
    /// ```
    /// use lobzhinar::{Cut, Packet};
    ///
    /// // After the header an identifier with 32 bytes of message, and another field of 28 bytes.
    /// let bytes = [&[0; 48][..], &[0x01, 0x04, 0, 36], &[7; 32], &[0x20, 0x01, 0, 28], &[8; 24]].concat();
    /// let packet = Packet::v4(&bytes);
    /// let first = Cut { field_offset: 48, wire_length: 36 };
    /// let second = Cut { field_offset: 84, wire_length: 28 };
    /// assert!(packet.is_cut(&[first, second]));
    /// assert!(!packet.is_cut(&[first]));
    /// assert!(!packet.is_cut(&[first, Cut { wire_length: 24, ..second }]));
    /// ```
    #[must_use]
    #[inline]
    pub fn is_cut(&self, cuts: &[Cut]) -> bool {
        let bytes = self.bytes();
        // SAFETY: each pointer is of a slice, with its length, and a `Cut` is the library's own struct.
        unsafe {
            ffi::ntp_raw_is_cut_table(
                bytes.as_ptr(),
                bytes.len(),
                self.header_size(),
                self.version().number(),
                cuts.as_ptr(),
                cuts.len(),
            )
        }
    }

    /// The same of two lists: where each field begins, and how many bytes it takes. Lists of unequal length are no cut.
    ///
    /// ```
    /// # let bytes = [&[0; 48][..], &[0x01, 0x04, 0, 36], &[7; 32], &[0x20, 0x01, 0, 28], &[8; 24]].concat();
    /// # let packet = lobzhinar::Packet::v4(&bytes);
    /// assert!(packet.is_cut_lists(&[48, 84], &[36, 28]));
    /// assert!(!packet.is_cut_lists(&[48, 84], &[36, 28, 0]));
    /// ```
    #[must_use]
    #[inline]
    pub fn is_cut_lists(&self, field_offsets: &[usize], wire_lengths: &[usize]) -> bool {
        let bytes = self.bytes();
        // SAFETY: each pointer is of a slice, with its length.
        unsafe {
            ffi::ntp_raw_is_cut(
                bytes.as_ptr(),
                bytes.len(),
                self.header_size(),
                self.version().number(),
                field_offsets.as_ptr(),
                field_offsets.len(),
                wire_lengths.as_ptr(),
                wire_lengths.len(),
            )
        }
    }
}
