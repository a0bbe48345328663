// The place of a field of a plaintext is one of the plaintexts.
use lobzhinar::{Encrypted, Field};

pub fn host(field: Field<'_, Encrypted>) -> usize {
    field.plaintexts_offset().bytes_from_plaintexts_start()
}
