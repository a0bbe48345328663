// Nobody asks whether the lists are the cut.
#![deny(unused_must_use)]
use lobzhinar::{Packet, Refusal};

pub fn host(packet: Packet<'_>, field_offsets: &[usize], wire_lengths: &[usize]) -> Result<(), Refusal> {
    packet.is_cut_lists(field_offsets, wire_lengths); //~ unused_must_use
    Ok(())
}
