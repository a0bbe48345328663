// The place of a field of the packet is one of the packet.
use lobzhinar::{Field, Untrusted};

pub fn host(field: Field<'_, Untrusted>) -> usize {
    field.packet_offset().bytes_from_packet_start()
}
