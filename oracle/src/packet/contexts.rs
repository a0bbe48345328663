//! What ntp-proto shows a key chooser before it opens a sealed field.

use crate::packet::crypto::{Cipher, CipherHolder, CipherProvider, DecryptError, EncryptResult};
use crate::packet::extension_fields::{ExtensionField, ExtensionFieldData, ExtensionHeaderVersion};
use std::cell::{Cell, RefCell};

/// What is known of the key to a sealed field.
pub enum Key {
    None,
    /// It fails, or gives a plaintext.
    Some(Opener),
}

/// Fails, or gives a plaintext.
pub struct Opener(pub Option<Vec<u8>>);

impl Cipher for Opener {
    fn encrypt(&self, _: &mut [u8], _: usize, _: &[u8]) -> std::io::Result<EncryptResult> {
        unreachable!("a reader seals nothing")
    }

    fn decrypt(&self, _: &[u8], _: &[u8], _: &[u8]) -> Result<Vec<u8>, DecryptError> {
        self.0.clone().ok_or(DecryptError)
    }
}

struct Chooser {
    keys: Vec<Key>,
    asked: Cell<usize>,
    seen: RefCell<Vec<Vec<String>>>,
}

impl CipherProvider for Chooser {
    fn get(&self, context: &[ExtensionField<'_>]) -> Option<CipherHolder<'_>> {
        let number = self.asked.replace(self.asked.get() + 1);
        let seen = context.iter().map(described).collect();
        self.seen.borrow_mut().push(seen);
        match &self.keys[number] {
            Key::None => None,
            Key::Some(opener) => Some(CipherHolder::Other(opener)),
        }
    }
}

/// The contexts of all sealed fields, in words: kind and message of each field. There is a key for each sealed field.
pub fn contexts(
    packet: &[u8],
    header_size: usize,
    version: ExtensionHeaderVersion,
    keys: Vec<Key>,
) -> Vec<Vec<String>> {
    let chooser = Chooser {
        keys,
        asked: Cell::default(),
        seen: RefCell::default(),
    };
    let _ = ExtensionFieldData::deserialize(packet, header_size, &chooser, version);
    chooser.seen.into_inner()
}

fn described(field: &ExtensionField) -> String {
    let (name, says) = match field {
        ExtensionField::UniqueIdentifier(data) => ("UniqueIdentifier", data.to_vec()),
        ExtensionField::NtsCookie(data) => ("NtsCookie", data.to_vec()),
        ExtensionField::NtsCookiePlaceholder { cookie_length } => {
            let zeros = vec![0; usize::from(*cookie_length)];
            ("NtsCookiePlaceholder", zeros)
        }
        ExtensionField::InvalidNtsEncryptedField => ("InvalidNtsEncryptedField", vec![]),
        ExtensionField::DraftIdentification(text) => {
            ("DraftIdentification", text.as_bytes().to_vec())
        }
        ExtensionField::Padding(_) => ("Padding", vec![]),
        ExtensionField::ReferenceIdRequest(request) => {
            let message = request_message(request.payload_len(), request.offset());
            ("ReferenceIdRequest", message)
        }
        ExtensionField::ReferenceIdResponse(response) => {
            ("ReferenceIdResponse", response.bytes().to_vec())
        }
        ExtensionField::Unknown { data, .. } => ("Unknown", data.to_vec()),
    };
    format!("{name} {says:?}")
}

/// A message of a request: of more than its length and its offset nothing is kept.
pub fn request_message(payload_len: u16, offset: u16) -> Vec<u8> {
    let mut message = vec![0; usize::from(payload_len)];
    message[..2].copy_from_slice(&offset.to_be_bytes());
    message
}
