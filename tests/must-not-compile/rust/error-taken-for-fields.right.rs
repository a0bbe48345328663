// The fields are used once the packet was accepted.
use lobzhinar::{ReadError, Results};

pub fn host(results: Results<'_, '_, '_>) -> usize {
    results.deserialize().as_ref().map_or(0, |read| read.untrusted().len())
}

pub fn number(error: &ReadError<'_, '_, '_>) -> u8 {
    error.number()
}
