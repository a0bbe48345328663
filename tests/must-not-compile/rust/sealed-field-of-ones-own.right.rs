// A sealed field comes from a survey.
use lobzhinar::{Packet, SealTable, Sealed, survey};

pub fn host(bytes: &[u8]) -> usize {
    let (packet, mut seals) = (Packet::v4(bytes), SealTable::new());
    let found = survey(packet, &mut seals);
    let index = |sealed: Sealed<'_>| sealed.index();
    found.iter().map(index).sum()
}
