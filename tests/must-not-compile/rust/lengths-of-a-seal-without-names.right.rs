// The lengths of nonce and ciphertext have names.
use lobzhinar::{Between, EncryptResult, FieldsToWrite, Output, Refusal, serialize};

pub fn host(fields: &FieldsToWrite<'_>, packet: &mut [u8], between: Between<'_>) -> Result<usize, Refusal> {
    serialize(fields, Output::v4(packet), between, |work| {
        let (nonce_length, ciphertext_length) = (work.nonce.len(), work.ciphertext.len());
        let sealed = EncryptResult { nonce_length, ciphertext_length };
        let _ = sealed;
        Some(sealed)
    })
}
