//! Ciphers that do as a case says.
//!
//! The crate hands sealed fields to a cipher; the port takes results that a
//! host lends, and lends out what is to be sealed. These ciphers stand between
//! the two: they play back what is lent, and keep what they were handed.

use crate::packet::crypto::{
    Cipher, CipherHolder, CipherProvider, DecodedServerCookie, DecryptError, EncryptResult,
};
use crate::packet::extension_fields::ExtensionField;
use std::cell::Cell;
use std::io;
use std::sync::{Arc, Mutex};

/// What the host lends for a sealed field: a verdict and a plaintext's place.
#[derive(Copy, Clone)]
pub struct LentResult {
    pub verdict: u64,
    pub start: u64,
    pub length: u64,
}

impl LentResult {
    pub const NO_KEY: u64 = 0;
    pub const FAILED: u64 = 1;
    pub const OPENED: u64 = 2;
    pub const OPENED_BY_COOKIE: u64 = 3;

    /// Whether there is a cipher, so that the crate hands it the field.
    pub fn has_cipher(&self) -> bool {
        self.verdict != Self::NO_KEY
    }

    /// The plaintext, if its place is inside the lent buffer.
    pub fn plaintext<'a>(&self, buffer: &'a [u8]) -> Option<&'a [u8]> {
        let end = self.start.checked_add(self.length)?;
        buffer.get(self.start as usize..end as usize)
    }
}

/// Where associated data lay when they were handed to a cipher, and how many.
pub type Handed = (usize, usize);

/// A cipher that gives one lent result.
#[derive(Clone)]
struct Opener {
    result: LentResult,
    plain: Arc<[u8]>,
    handed: Arc<Mutex<Vec<Handed>>>,
}

impl Cipher for Opener {
    fn encrypt(&self, _: &mut [u8], _: usize, _: &[u8]) -> io::Result<EncryptResult> {
        unreachable!("a reader seals nothing")
    }

    fn decrypt(&self, _: &[u8], _: &[u8], associated: &[u8]) -> Result<Vec<u8>, DecryptError> {
        let place = (associated.as_ptr().addr(), associated.len());
        self.handed.lock().expect("one thread").push(place);
        if self.result.verdict == LentResult::FAILED {
            return Err(DecryptError);
        }
        let plaintext = self.result.plaintext(&self.plain);
        Ok(plaintext.expect("the chain has tested it").to_vec())
    }
}

/// Gives the lent results in their order, one for each sealed field.
pub struct Openers {
    openers: Vec<Opener>,
    asked: Cell<usize>,
    handed: Arc<Mutex<Vec<Handed>>>,
}

impl Openers {
    pub fn new(results: &[LentResult], plain: &[u8]) -> Self {
        let handed = Arc::<Mutex<Vec<Handed>>>::default();
        let plain: Arc<[u8]> = plain.into();
        let opener = |result: &LentResult| Opener {
            result: *result,
            plain: plain.clone(),
            handed: handed.clone(),
        };
        Self {
            openers: results.iter().map(opener).collect(),
            asked: Cell::new(0),
            handed: handed.clone(),
        }
    }

    /// The associated data of each decryption so far.
    pub fn handed(&self) -> Vec<Handed> {
        self.handed.lock().expect("one thread").clone()
    }
}

impl CipherProvider for Openers {
    fn get(&self, _: &[ExtensionField<'_>]) -> Option<CipherHolder<'_>> {
        let number = self.asked.get();
        self.asked.set(number + 1);
        let opener = &self.openers[number];
        match opener.result.verdict {
            LentResult::NO_KEY => None,
            LentResult::OPENED_BY_COOKIE => {
                Some(CipherHolder::DecodedServerCookie(DecodedServerCookie {
                    sealed_field: number,
                    c2s: Box::new(opener.clone()),
                }))
            }
            _ => Some(CipherHolder::Other(opener)),
        }
    }
}

/// A cipher that seals with the case's nonce and ciphertext, whatever the
/// plaintext is, and keeps the plaintext.
pub struct Sealer {
    nonce: Vec<u8>,
    ciphertext: Vec<u8>,
    plaintext: Mutex<Vec<u8>>,
}

impl Sealer {
    pub fn new(nonce: Vec<u8>, ciphertext: Vec<u8>) -> Self {
        Self {
            nonce,
            ciphertext,
            plaintext: Mutex::default(),
        }
    }

    /// The plaintext that was sealed, empty where nothing was.
    pub fn plaintext(&self) -> Vec<u8> {
        self.plaintext.lock().expect("one thread").clone()
    }
}

impl Cipher for Sealer {
    fn encrypt(&self, buffer: &mut [u8], length: usize, _: &[u8]) -> io::Result<EncryptResult> {
        *self.plaintext.lock().expect("one thread") = buffer[..length].to_vec();
        let sealed = [&self.nonce[..], &self.ciphertext].concat();
        let room = buffer.get_mut(..sealed.len());
        room.ok_or(io::ErrorKind::WriteZero)?
            .copy_from_slice(&sealed);
        Ok(EncryptResult {
            nonce_length: self.nonce.len(),
            ciphertext_length: self.ciphertext.len(),
        })
    }

    fn decrypt(&self, _: &[u8], _: &[u8], _: &[u8]) -> Result<Vec<u8>, DecryptError> {
        unreachable!("a writer opens nothing")
    }
}

/// The cipher of a write, or none.
impl CipherProvider for Option<Sealer> {
    fn get(&self, _: &[ExtensionField<'_>]) -> Option<CipherHolder<'_>> {
        self.as_ref().map(|sealer| CipherHolder::Other(sealer))
    }
}
