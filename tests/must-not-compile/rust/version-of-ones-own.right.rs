// A version is one of two.
use lobzhinar::{ExtensionHeaderVersion, Packet};

pub fn host(bytes: &[u8]) -> Packet<'_> {
    Packet::with_header(ExtensionHeaderVersion::V4, 48, bytes)
}
