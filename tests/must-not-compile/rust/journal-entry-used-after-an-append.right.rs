// An entry is asked for again after an append.
use lobzhinar::{Flash, Journal, JournalError};

pub fn host<F: Flash>(journal: &mut Journal<F>, header: &[u8; 48]) -> Result<usize, JournalError<F::Error>> {
    let _ = journal.append_header(header)?;
    let first = journal.entries().next();
    Ok(first.map_or(0, |entry| entry.body().len()))
}
