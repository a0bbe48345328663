// An entry is used after an append, which may store where it stands.
use lobzhinar::{Flash, Journal, JournalError};

pub fn host<F: Flash>(journal: &mut Journal<F>, header: &[u8; 48]) -> Result<usize, JournalError<F::Error>> {
    let first = journal.entries().next();
    let _ = journal.append_header(header)?; //~ E0502
    Ok(first.map_or(0, |entry| entry.body().len()))
}
