// Who appends has the journal alone.
use lobzhinar::{Flash, Journal, JournalError};

pub fn host<F: Flash>(journal: &mut Journal<F>, header: &[u8; 48]) -> Result<usize, JournalError<F::Error>> {
    journal.append_header(header)
}
