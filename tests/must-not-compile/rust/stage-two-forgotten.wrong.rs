// The packet is sent after stage one, without its seal.
#![deny(unused_must_use)]
use lobzhinar::{Ciphertext, FieldsToWrite, Nonce, Output, Refusal, stage_one};

pub fn host(fields: &FieldsToWrite<'_>, out: &mut [u8]) -> Result<usize, Refusal> {
    stage_one(fields, Output::v4(out), &mut [0; 64])?; //~ unused_must_use
    Ok(out.len())
}
