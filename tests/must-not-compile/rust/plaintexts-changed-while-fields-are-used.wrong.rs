// The plaintexts are changed while their fields are used.
use lobzhinar::{Refusal, Results, Survey, Tables};

pub fn host(survey: &Survey<'_, '_>, plaintexts: &mut [u8], tables: &mut Tables) -> Result<usize, Refusal> {
    let read = Results::new(survey, plaintexts, tables).deserialize()?;
    let field = read.encrypted_field(0)?;
    plaintexts.fill(0); //~ E0499
    Ok(field.message().len())
}
