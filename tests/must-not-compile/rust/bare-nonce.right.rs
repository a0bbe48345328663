// The nonce is said to be one.
use lobzhinar::{Ciphertext, Nonce, Refusal, StageOne};

pub fn host(stage: StageOne<'_, '_>, nonce: &[u8], ciphertext: &[u8]) -> Result<usize, Refusal> {
    stage.stage_two(Nonce(nonce), Ciphertext(ciphertext))
}
