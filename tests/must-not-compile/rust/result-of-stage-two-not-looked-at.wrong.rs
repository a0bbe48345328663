// Nobody asks whether the packet was written.
#![deny(unused_must_use)]
use lobzhinar::{Refusal, StageOne};

pub fn host(stage: StageOne<'_, '_>) -> Result<(), Refusal> {
    stage.stage_two_without_seal(); //~ unused_must_use
    Ok(())
}
