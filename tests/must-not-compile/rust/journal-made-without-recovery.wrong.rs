// A journal is made by hand, and said to be recovered.
use lobzhinar::{Flash, Journal, JournalError, JournalFound};

pub fn host<F: Flash>(flash: F, found: JournalFound) -> Result<Journal<F>, JournalError<F::Error>> {
    let _ = found;
    Ok(Journal { flash, found, is_recovered: true }) //~ E0451
}
