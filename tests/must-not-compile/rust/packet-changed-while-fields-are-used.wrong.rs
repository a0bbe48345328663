// The packet is changed while its fields are used.
use lobzhinar::{Opening, Packet, Refusal, Workspace, deserialize};

pub fn host(packet: &mut [u8], workspace: &mut Workspace) -> Result<usize, Refusal> {
    let read = deserialize(Packet::v4(packet), workspace, &mut [], |_, _, _| Opening::NoKey)?;
    let field = read.untrusted_field(0)?;
    packet[0] = 0; //~ E0506
    Ok(field.message_len())
}
