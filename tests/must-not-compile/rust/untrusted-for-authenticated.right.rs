// An authenticated field is given where one is wanted.
use lobzhinar::{Authenticated, ExtensionFieldData, Field, Refusal};

fn keep_cookie(_cookie: Field<'_, Authenticated>) {}

pub fn host(read: &ExtensionFieldData<'_, '_, '_>) -> Result<(), Refusal> {
    keep_cookie(read.authenticated_field(0)?);
    Ok(())
}
