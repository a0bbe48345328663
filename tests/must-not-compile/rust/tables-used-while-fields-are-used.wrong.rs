// The next packet is read into the tables while the fields of the last one are listed.
use lobzhinar::{Refusal, Results, Survey, Tables};

pub fn host(first: &Survey<'_, '_>, second: &Survey<'_, '_>, tables: &mut Tables) -> Result<usize, Refusal> {
    let read = Results::new(first, &mut [], tables).deserialize()?;
    let again = Results::new(second, &mut [], tables).deserialize()?; //~ E0499
    Ok(read.untrusted().len() + again.untrusted().len())
}
