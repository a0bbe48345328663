// A packet that was not written is an error of the caller too.
#![deny(unused_must_use)]
use lobzhinar::{Refusal, StageOne};

pub fn host(stage: StageOne<'_, '_>) -> Result<(), Refusal> {
    stage.stage_two_without_seal()?;
    Ok(())
}
