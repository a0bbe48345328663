// A program invents a trust class.
use lobzhinar::{Field, Trust};

pub struct Believed;
impl Trust for Believed {} //~ E0277

pub fn host<T: Trust>(field: Field<'_, T>) -> usize {
    field.message_len()
}
