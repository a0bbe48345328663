// The next packet is read once the fields of the last one are no longer listed.
use lobzhinar::{Refusal, Results, Survey, Tables};

pub fn host(first: &Survey<'_, '_>, second: &Survey<'_, '_>, tables: &mut Tables) -> Result<usize, Refusal> {
    let read = Results::new(first, &mut [], tables).deserialize()?;
    let count = read.untrusted().len();
    let again = Results::new(second, &mut [], tables).deserialize()?;
    Ok(count + again.untrusted().len())
}
