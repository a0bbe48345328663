// Nobody asks whether the packet was accepted.
#![deny(unused_must_use)]
use lobzhinar::{Refusal, Results};

pub fn host(results: Results<'_, '_, '_>) -> Result<(), Refusal> {
    results.deserialize(); //~ unused_must_use
    Ok(())
}
