// The flash that was taken out is recovered again.
use lobzhinar::{Flash, Journal, JournalError};

pub fn host<F: Flash>(journal: Journal<F>, header: &[u8; 48]) -> Result<F, JournalError<F::Error>> {
    let flash = journal.into_flash();
    let mut journal = Journal::recover(flash)?;
    journal.append_header(header)?;
    Ok(journal.into_flash())
}
