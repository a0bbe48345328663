// Nobody asks whether the table is the cut.
#![deny(unused_must_use)]
use lobzhinar::{Cut, Packet, Refusal};

pub fn host(packet: Packet<'_>, cuts: &[Cut]) -> Result<(), Refusal> {
    packet.is_cut(cuts); //~ unused_must_use
    Ok(())
}
