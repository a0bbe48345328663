// An encrypted field is given where an authenticated one is wanted.
use lobzhinar::{Authenticated, ExtensionFieldData, Field};

fn keep_identifier(_identifier: Field<'_, Authenticated>) {}

pub fn host(read: &ExtensionFieldData<'_, '_, '_>) {
    read.encrypted().for_each(keep_identifier); //~ E0631
}
