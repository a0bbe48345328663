// The marker of a failed seal is to be written.
use lobzhinar::{FieldsToWrite, Full};

pub fn host(fields: &mut FieldsToWrite<'_>) -> Result<(), Full> {
    fields.untrusted().invalid_nts_encrypted_field()?; //~ E0599
    Ok(())
}
