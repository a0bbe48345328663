// A survey has a table of its own.
use lobzhinar::{Packet, SealTable, Tables, survey};

pub fn host(bytes: &[u8]) -> usize {
    let mut table = SealTable::new();
    survey(Packet::v4(bytes), &mut table).seal_count()
}
