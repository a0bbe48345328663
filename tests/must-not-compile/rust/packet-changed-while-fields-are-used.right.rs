// The packet is changed once its fields are no longer used.
use lobzhinar::{Opening, Packet, Refusal, Workspace, deserialize};

pub fn host(packet: &mut [u8], workspace: &mut Workspace) -> Result<usize, Refusal> {
    let read = deserialize(Packet::v4(packet), workspace, &mut [], |_, _, _| Opening::NoKey)?;
    let field = read.untrusted_field(0)?;
    let message_len = field.message_len();
    packet[0] = 0;
    Ok(message_len)
}
