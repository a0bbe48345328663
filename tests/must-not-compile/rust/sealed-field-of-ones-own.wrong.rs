// A program makes a sealed field that no survey has found.
use lobzhinar::{Packet, SealTable, Sealed, survey};

pub fn host(bytes: &[u8]) -> usize {
    let (packet, mut seals) = (Packet::v4(bytes), SealTable::new());
    let found = survey(packet, &mut seals);
    let index = |sealed: Sealed<'_>| sealed.index();
    index(Sealed { packet, nonce: b"", ciphertext: b"", associated_data: b"", index: found.seal_count() }) //~ E0451
}
