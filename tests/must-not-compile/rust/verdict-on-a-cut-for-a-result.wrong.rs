// The verdict on a cut is taken for a result, so that a no would end the function.
use lobzhinar::{Cut, Packet, Refusal};

pub fn host(packet: Packet<'_>, cuts: &[Cut]) -> Result<(), Refusal> {
    packet.is_cut(cuts)?; //~ E0277
    Ok(())
}
