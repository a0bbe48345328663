// Only the journal stores, as long as it has the flash.
use lobzhinar::{Flash, Journal, JournalError};

pub fn host<F: Flash>(mut flash: F, header: &[u8; 48]) -> Result<usize, JournalError<F::Error>> {
    flash.store(0, 0xff).map_err(JournalError::Store)?;
    let mut journal = Journal::recover(&mut flash)?;
    journal.append_header(header)
}
