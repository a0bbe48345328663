// Stage one knows where the sealed field goes.
use lobzhinar::{Ciphertext, Nonce, Refusal, StageOne};

pub fn host(stage: StageOne<'_, '_>) -> Result<usize, Refusal> {
    stage.stage_two(Nonce(&[7; 16]), Ciphertext(&[8; 16]))
}
