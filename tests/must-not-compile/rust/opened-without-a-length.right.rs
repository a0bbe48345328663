// Opened comes with the length of the plaintext.
use lobzhinar::Opening;

pub fn host(is_authentic: bool, plaintext_len: usize) -> Opening {
    if !is_authentic {
        return Opening::Failed;
    }
    let _ = plaintext_len;
    Opening::Opened { plaintext_len }
}
