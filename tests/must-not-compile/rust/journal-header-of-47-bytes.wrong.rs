// A header is appended without its last byte.
use lobzhinar::{Flash, Journal, JournalError};

pub fn host<F: Flash>(journal: &mut Journal<F>, header: &[u8; 47]) -> Result<usize, JournalError<F::Error>> {
    journal.append_header(header) //~ E0308
}
