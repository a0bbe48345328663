// A cut comes as a pair of numbers, without names.
use lobzhinar::{Cut, Packet};

pub fn host(packet: Packet<'_>, field_offset: usize, wire_length: usize) -> bool {
    packet.is_cut(&[(field_offset, wire_length)]) //~ E0308
}
