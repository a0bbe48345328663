// A version is given that there is no layout for.
use lobzhinar::{ExtensionHeaderVersion, Packet};

pub fn host(bytes: &[u8]) -> Packet<'_> {
    Packet::with_header(3, 48, bytes) //~ E0308
}
