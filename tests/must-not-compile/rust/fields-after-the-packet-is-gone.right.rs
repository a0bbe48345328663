// A field is used as long as its packet is there.
use lobzhinar::{Opening, Packet, Refusal, Workspace, deserialize};

pub fn host(workspace: &mut Workspace) -> Result<usize, Refusal> {
    let packet = [0; 76];
    let field = {
        let read = deserialize(Packet::v4(&packet), workspace, &mut [], |_, _, _| Opening::NoKey)?;
        read.untrusted_field(0)?
    };
    Ok(field.message_len())
}
