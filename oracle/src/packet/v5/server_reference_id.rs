//! Stand-in for the Bloom filter, of which a reference id response is cut.

/// The filter's bytes, as many as the crate's filter has.
pub struct BloomFilter([u8; Self::BYTES]);

impl BloomFilter {
    pub const BYTES: usize = 512;

    pub const fn from_bytes(bytes: [u8; Self::BYTES]) -> Self {
        Self(bytes)
    }

    pub const fn as_bytes(&self) -> &[u8; Self::BYTES] {
        &self.0
    }
}
