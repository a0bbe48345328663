// The plaintexts are changed once their fields are no longer used.
use lobzhinar::{Refusal, Results, Survey, Tables};

pub fn host(survey: &Survey<'_, '_>, plaintexts: &mut [u8], tables: &mut Tables) -> Result<usize, Refusal> {
    let read = Results::new(survey, plaintexts, tables).deserialize()?;
    let field = read.encrypted_field(0)?;
    let message_len = field.message().len();
    plaintexts.fill(0);
    Ok(message_len)
}
