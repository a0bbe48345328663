// A length is given where a place in the packet is wanted.
use lobzhinar::{Field, PacketOffset, Untrusted};

fn log_place(_place: PacketOffset) {}

pub fn host(field: Field<'_, Untrusted>) {
    log_place(field.wire_length()); //~ E0308
}
