// The header is written before it is sealed.
use lobzhinar::{Ciphertext, FieldsToWrite, Nonce, Output, Refusal, stage_one};

pub fn host(fields: &FieldsToWrite<'_>, packet: &mut [u8]) -> Result<usize, Refusal> {
    packet[0] = 0x23;
    let mut plaintext = [0; 64];
    let stage = stage_one(fields, Output::v4(packet), &mut plaintext)?;
    stage.stage_two(Nonce(&[7; 16]), Ciphertext(&[8; 16]))
}
