// A journal that others may be reading is appended to.
use lobzhinar::{Flash, Journal, JournalError};

pub fn host<F: Flash>(journal: &Journal<F>, header: &[u8; 48]) -> Result<usize, JournalError<F::Error>> {
    journal.append_header(header) //~ E0596
}
