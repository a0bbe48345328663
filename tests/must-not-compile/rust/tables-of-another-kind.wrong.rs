// The tables of the fields are given to a survey.
use lobzhinar::{Packet, SealTable, Tables, survey};

pub fn host(bytes: &[u8]) -> usize {
    let mut table = Tables::new();
    survey(Packet::v4(bytes), &mut table).seal_count() //~ E0308
}
