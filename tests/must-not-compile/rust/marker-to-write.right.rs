// A field that can be written is.
use lobzhinar::{FieldsToWrite, Full};

pub fn host(fields: &mut FieldsToWrite<'_>) -> Result<(), Full> {
    fields.untrusted().padding(16)?;
    Ok(())
}
