// The flash was taken out of the journal, which may since hold anything.
use lobzhinar::{Flash, Journal, JournalError};

pub fn host<F: Flash>(mut journal: Journal<F>, header: &[u8; 48]) -> Result<F, JournalError<F::Error>> {
    let flash = journal.into_flash();
    journal.append_header(header)?; //~ E0382
    Ok(flash)
}
