// A packet that is not accepted is an error of the caller too.
#![deny(unused_must_use)]
use lobzhinar::{Refusal, Results};

pub fn host(results: Results<'_, '_, '_>) -> Result<(), Refusal> {
    let _read = results.deserialize()?;
    Ok(())
}
