//! A packet to read.

use crate::version::{ExtensionHeaderVersion, HEADER_SIZE};

/// A packet to read: its bytes, the size of its header, and the version by which its fields are cut.
///
/// The header itself is not judged here; [`NtpHeaderV5::deserialize`](crate::NtpHeaderV5::deserialize) reads that of
/// `NTPv5`.
#[derive(Copy, Clone, Debug, PartialEq, Eq, Hash)]
pub struct Packet<'packet> {
    bytes: &'packet [u8],
    header_size: usize,
    version: ExtensionHeaderVersion,
}

impl<'packet> Packet<'packet> {
    /// A packet of `NTPv4`, with its header of 48 bytes.
    #[must_use]
    pub const fn v4(bytes: &'packet [u8]) -> Self {
        Self::with_header(ExtensionHeaderVersion::V4, HEADER_SIZE, bytes)
    }

    /// A packet of `NTPv5`, with its header of 48 bytes.
    #[must_use]
    pub const fn v5(bytes: &'packet [u8]) -> Self {
        Self::with_header(ExtensionHeaderVersion::V5, HEADER_SIZE, bytes)
    }

    /// A packet whose fields start after `header_size` bytes. A header that ends past the packet is refused when the
    /// packet is read.
    #[must_use]
    pub const fn with_header(
        version: ExtensionHeaderVersion,
        header_size: usize,
        bytes: &'packet [u8],
    ) -> Self {
        Self {
            bytes,
            header_size,
            version,
        }
    }

    /// All of its bytes.
    #[must_use]
    pub const fn bytes(&self) -> &'packet [u8] {
        self.bytes
    }

    /// How many of them are its header.
    #[must_use]
    pub const fn header_size(&self) -> usize {
        self.header_size
    }

    /// By which version its fields are cut.
    #[must_use]
    pub const fn version(&self) -> ExtensionHeaderVersion {
        self.version
    }

    /// Whether both are the same bytes at the same place, read in the same way.
    #[inline]
    pub(crate) fn is_same_as(&self, other: &Packet<'_>) -> bool {
        core::ptr::eq(self.bytes, other.bytes)
            && self.header_size == other.header_size
            && self.version == other.version
    }
}
