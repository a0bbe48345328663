// Bytes are given for the nonce without saying that they are one.
use lobzhinar::{Ciphertext, Nonce, Refusal, StageOne};

pub fn host(stage: StageOne<'_, '_>, nonce: &[u8], ciphertext: &[u8]) -> Result<usize, Refusal> {
    stage.stage_two(nonce, Ciphertext(ciphertext)) //~ E0308
}
