// The sealed field is put at a place of the program's own.
use lobzhinar::{Ciphertext, Nonce, Refusal, StageOne};

pub fn host(stage: StageOne<'_, '_>) -> Result<usize, Refusal> {
    stage.stage_two(48, Nonce(&[7; 16]), Ciphertext(&[8; 16])) //~ E0061
}
