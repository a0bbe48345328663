// A table of cuts is given.
use lobzhinar::{Cut, Packet};

pub fn host(packet: Packet<'_>, field_offsets: &[usize], cuts: &[Cut]) -> bool {
    packet.is_cut(cuts)
}
