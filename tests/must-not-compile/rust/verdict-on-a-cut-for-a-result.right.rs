// The verdict on a cut is yes or no, and the caller says what a no is.
use lobzhinar::{Cut, Packet, Refusal};

pub fn host(packet: Packet<'_>, cuts: &[Cut]) -> Result<(), Refusal> {
    packet.is_cut(cuts).then_some(()).ok_or(Refusal::IncorrectLength)?;
    Ok(())
}
