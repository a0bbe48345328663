// A field is used after its packet is gone.
use lobzhinar::{Opening, Packet, Refusal, Workspace, deserialize};

pub fn host(workspace: &mut Workspace) -> Result<usize, Refusal> {
    let field = {
        let packet = [0; 76];
        let read = deserialize(Packet::v4(&packet), workspace, &mut [], |_, _, _| Opening::NoKey)?; //~ E0597
        read.untrusted_field(0)?
    };
    Ok(field.message_len())
}
