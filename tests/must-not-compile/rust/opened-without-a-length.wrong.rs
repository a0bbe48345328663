// A sealed field opened, and nobody says how long its plaintext is.
use lobzhinar::Opening;

pub fn host(is_authentic: bool, plaintext_len: usize) -> Opening {
    if !is_authentic {
        return Opening::Failed;
    }
    let _ = plaintext_len;
    Opening::Opened {} //~ E0063
}
