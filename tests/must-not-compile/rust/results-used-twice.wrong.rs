// Results are used for a second reading.
use lobzhinar::Results;

pub fn host(results: Results<'_, '_, '_>) -> bool {
    let is_read = results.deserialize().is_ok();
    is_read && results.deserialize().is_ok() //~ E0382
}
