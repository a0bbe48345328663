// Stage two is called once.
use lobzhinar::{Ciphertext, Nonce, Refusal, StageOne};

pub fn host(stage: StageOne<'_, '_>) -> Result<usize, Refusal> {
    let packet_len = stage.stage_two(Nonce(&[7; 16]), Ciphertext(&[8; 16]))?;
    Ok(packet_len)
}
