// Another packet is read with the results.
use lobzhinar::{Packet, Results};

pub fn host(results: Results<'_, '_, '_>, other: Packet<'_>) -> bool {
    let _ = other;
    results.deserialize(other).is_ok() //~ E0061
}
