// An authenticated field is given where one is wanted.
use lobzhinar::{Authenticated, ExtensionFieldData, Field};

fn keep_identifier(_identifier: Field<'_, Authenticated>) {}

pub fn host(read: &ExtensionFieldData<'_, '_, '_>) {
    read.authenticated().for_each(keep_identifier);
}
