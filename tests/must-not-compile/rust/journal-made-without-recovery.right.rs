// Recovery makes the journal.
use lobzhinar::{Flash, Journal, JournalError, JournalFound};

pub fn host<F: Flash>(flash: F, found: JournalFound) -> Result<Journal<F>, JournalError<F::Error>> {
    let _ = found;
    Ok(Journal::recover(flash)?)
}
