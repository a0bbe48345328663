// The numbers of a cut have names.
use lobzhinar::{Cut, Packet};

pub fn host(packet: Packet<'_>) -> bool {
    packet.is_cut(&[Cut { field_offset: 48, wire_length: 36 }])
}
