// The offsets are given without the lengths.
use lobzhinar::Packet;

pub fn host(packet: Packet<'_>, field_offsets: &[usize], wire_lengths: &[usize]) -> bool {
    packet.is_cut_lists(field_offsets) //~ E0061
}
