// Flash is recovered before it is appended to.
use lobzhinar::{Flash, Journal, JournalError};

pub fn host<F: Flash>(flash: F, header: &[u8; 48]) -> Result<usize, JournalError<F::Error>> {
    Journal::recover(flash)?.append_header(header)
}
