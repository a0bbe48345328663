//! Places in the two buffers that a packet is read from. Each has a type of its own, so that a length, or a place in
//! the other buffer, is not taken for one.

use core::fmt;

/// A place in a packet, counted in bytes from its start.
#[derive(Copy, Clone, Debug, PartialEq, Eq, Hash, PartialOrd, Ord)]
pub struct PacketOffset(usize);

impl PacketOffset {
    pub(crate) const fn new(bytes: usize) -> Self {
        Self(bytes)
    }

    /// How many bytes of the packet are before it.
    #[must_use]
    pub const fn bytes_from_packet_start(self) -> usize {
        self.0
    }
}

impl fmt::Display for PacketOffset {
    fn fmt(&self, f: &mut fmt::Formatter<'_>) -> fmt::Result {
        self.0.fmt(f)
    }
}

/// A place in the buffer of all plaintexts, counted in bytes from its start.
#[derive(Copy, Clone, Debug, PartialEq, Eq, Hash, PartialOrd, Ord)]
pub struct PlaintextsOffset(usize);

impl PlaintextsOffset {
    pub(crate) const fn new(bytes: usize) -> Self {
        Self(bytes)
    }

    /// How many bytes of the buffer are before it.
    #[must_use]
    pub const fn bytes_from_plaintexts_start(self) -> usize {
        self.0
    }
}

impl fmt::Display for PlaintextsOffset {
    fn fmt(&self, f: &mut fmt::Formatter<'_>) -> fmt::Result {
        self.0.fmt(f)
    }
}
