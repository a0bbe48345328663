// The offsets have as many bits as an index.
use lobzhinar::Packet;

pub fn host(packet: Packet<'_>, narrow: &[u32], field_offsets: &[usize], wire_lengths: &[usize]) -> bool {
    packet.is_cut_lists(field_offsets, wire_lengths)
}
