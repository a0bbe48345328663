// A byte is stored in flash that a journal is appending to.
use lobzhinar::{Flash, Journal, JournalError};

pub fn host<F: Flash>(mut flash: F, header: &[u8; 48]) -> Result<usize, JournalError<F::Error>> {
    let mut journal = Journal::recover(&mut flash)?;
    flash.store(0, 0xff).map_err(JournalError::Store)?; //~ E0499
    journal.append_header(header)
}
