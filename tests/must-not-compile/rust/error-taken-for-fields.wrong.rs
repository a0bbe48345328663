// The fields of a packet are used without asking whether it was accepted.
use lobzhinar::{ReadError, Results};

pub fn host(results: Results<'_, '_, '_>) -> usize {
    results.deserialize().untrusted().len() //~ E0599
}

pub fn number(error: &ReadError<'_, '_, '_>) -> u8 {
    error.number()
}
