// A place in the packet is given where one is wanted.
use lobzhinar::{Field, PacketOffset, Untrusted};

fn log_place(_place: PacketOffset) {}

pub fn host(field: Field<'_, Untrusted>) {
    log_place(field.packet_offset());
}
