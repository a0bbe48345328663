// The offsets have 32 bits, as a gateway may keep them.
use lobzhinar::Packet;

pub fn host(packet: Packet<'_>, narrow: &[u32], field_offsets: &[usize], wire_lengths: &[usize]) -> bool {
    packet.is_cut_lists(narrow, wire_lengths) //~ E0308
}
