// Flash is appended to that nobody has recovered.
use lobzhinar::{Flash, Journal, JournalError};

pub fn host<F: Flash>(flash: F, header: &[u8; 48]) -> Result<usize, JournalError<F::Error>> {
    flash.append_header(header) //~ E0599
}
