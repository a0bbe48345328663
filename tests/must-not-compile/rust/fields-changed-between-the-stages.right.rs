// All fields are added before stage one.
use lobzhinar::{Ciphertext, FieldsToWrite, Nonce, Output, stage_one};
use std::error::Error;

pub fn host(fields: &mut FieldsToWrite<'_>, packet: &mut [u8]) -> Result<usize, Box<dyn Error>> {
    let mut plaintext = [0; 64];
    fields.untrusted().padding(16)?;
    let stage = stage_one(fields, Output::v4(packet), &mut plaintext)?;
    Ok(stage.stage_two(Nonce(&[7; 16]), Ciphertext(&[8; 16]))?)
}
