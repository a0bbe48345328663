// A place in the plaintexts is given where one in the packet is wanted.
use lobzhinar::{ExtensionFieldData, PacketOffset, Refusal};

fn log_place(_place: PacketOffset) {}

pub fn host(read: &ExtensionFieldData<'_, '_, '_>) -> Result<(), Refusal> {
    log_place(read.encrypted_field(0)?.plaintexts_offset()); //~ E0308
    Ok(())
}
