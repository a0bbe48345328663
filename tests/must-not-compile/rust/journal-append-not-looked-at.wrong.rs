// Nobody asks whether the entry was appended.
#![deny(unused_must_use)]
use lobzhinar::{Flash, Journal, JournalError};

pub fn host<F: Flash>(journal: &mut Journal<F>, header: &[u8; 48]) -> Result<(), JournalError<F::Error>> {
    journal.append_header(header); //~ unused_must_use
    Ok(())
}
