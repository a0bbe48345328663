// A list of offsets is given for a table of cuts.
use lobzhinar::{Cut, Packet};

pub fn host(packet: Packet<'_>, field_offsets: &[usize], cuts: &[Cut]) -> bool {
    packet.is_cut(field_offsets) //~ E0308
}
