// The trust classes are those of the crate.
use lobzhinar::{Field, Trust};

pub fn host<T: Trust>(field: Field<'_, T>) -> usize {
    field.message_len()
}
