// The packet of the results is read.
use lobzhinar::{Packet, Results};

pub fn host(results: Results<'_, '_, '_>, other: Packet<'_>) -> bool {
    let _ = other;
    results.deserialize().is_ok()
}
