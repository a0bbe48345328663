// The packet is looked at where a field of a plaintext would be.
use lobzhinar::{Encrypted, Field};

pub fn host(field: Field<'_, Encrypted>) -> usize {
    field.packet_offset().bytes_from_packet_start() //~ E0599
}
