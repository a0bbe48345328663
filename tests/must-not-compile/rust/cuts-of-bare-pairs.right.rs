// The numbers of a cut have names.
use lobzhinar::{Cut, Packet};

pub fn host(packet: Packet<'_>, field_offset: usize, wire_length: usize) -> bool {
    packet.is_cut(&[Cut { field_offset, wire_length }])
}
