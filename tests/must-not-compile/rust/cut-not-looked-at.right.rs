// A table that is not the cut is an error of the caller.
#![deny(unused_must_use)]
use lobzhinar::{Cut, Packet, Refusal};

pub fn host(packet: Packet<'_>, cuts: &[Cut]) -> Result<(), Refusal> {
    packet.is_cut(cuts).then_some(()).ok_or(Refusal::IncorrectLength)
}
