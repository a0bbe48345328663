// An untrusted field is given where an authenticated one is wanted.
use lobzhinar::{Authenticated, ExtensionFieldData, Field, Refusal};

fn keep_cookie(_cookie: Field<'_, Authenticated>) {}

pub fn host(read: &ExtensionFieldData<'_, '_, '_>) -> Result<(), Refusal> {
    keep_cookie(read.untrusted_field(0)?); //~ E0308
    Ok(())
}
