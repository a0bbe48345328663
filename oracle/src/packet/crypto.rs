//! Stand-in for the ciphers: the traits through which the extension fields call
//! them, and the key that a server cookie holds. `answer::script` has the ciphers
//! themselves.

use super::extension_fields::ExtensionField;

/// Any failure to open a sealed field.
#[derive(Debug)]
pub struct DecryptError;

/// What `Cipher::encrypt` left in its buffer: the nonce, then the ciphertext.
pub struct EncryptResult {
    pub nonce_length: usize,
    pub ciphertext_length: usize,
}

/// A cipher with its key.
pub trait Cipher: Send + Sync + 'static {
    /// Replaces the plaintext at the buffer's start by nonce and ciphertext.
    fn encrypt(
        &self,
        buffer: &mut [u8],
        plaintext_length: usize,
        associated_data: &[u8],
    ) -> std::io::Result<EncryptResult>;

    /// Gives the plaintext of a sealed field.
    fn decrypt(
        &self,
        nonce: &[u8],
        ciphertext: &[u8],
        associated_data: &[u8],
    ) -> Result<Vec<u8>, DecryptError>;
}

/// A decoded cookie: the cipher of its key, and the number of the sealed field
/// for which the script handed it out, so that the cookie that is reported in
/// the end can be told from the others.
pub struct DecodedServerCookie {
    pub sealed_field: usize,
    pub c2s: Box<dyn Cipher>,
}

impl std::fmt::Debug for DecodedServerCookie {
    fn fmt(&self, f: &mut std::fmt::Formatter<'_>) -> std::fmt::Result {
        write!(f, "cookie of sealed field {}", self.sealed_field)
    }
}

/// A cipher, and whether it came out of a server cookie.
pub enum CipherHolder<'a> {
    DecodedServerCookie(DecodedServerCookie),
    Other(&'a dyn Cipher),
}

impl AsRef<dyn Cipher> for CipherHolder<'_> {
    fn as_ref(&self) -> &dyn Cipher {
        match self {
            Self::DecodedServerCookie(cookie) => &*cookie.c2s,
            Self::Other(cipher) => *cipher,
        }
    }
}

/// Finds the cipher for a sealed field, given the fields before it.
pub trait CipherProvider {
    fn get(&self, context: &[ExtensionField<'_>]) -> Option<CipherHolder<'_>>;
}
