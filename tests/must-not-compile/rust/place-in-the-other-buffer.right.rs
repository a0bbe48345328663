// A place in the packet is given where one is wanted.
use lobzhinar::{ExtensionFieldData, PacketOffset, Refusal};

fn log_place(_place: PacketOffset) {}

pub fn host(read: &ExtensionFieldData<'_, '_, '_>) -> Result<(), Refusal> {
    log_place(read.authenticated_field(0)?.packet_offset());
    Ok(())
}
