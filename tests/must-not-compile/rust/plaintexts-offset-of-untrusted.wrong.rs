// The plaintexts are looked at where a field of the packet would be.
use lobzhinar::{Field, Untrusted};

pub fn host(field: Field<'_, Untrusted>) -> usize {
    field.plaintexts_offset().bytes_from_plaintexts_start() //~ E0599
}
