// The room of one plaintext is written after its result was given.
use lobzhinar::{NotItsTurn, Results, Sealed};

pub fn host(results: &mut Results<'_, '_, '_>, sealed: &Sealed<'_>) -> Result<(), NotItsTurn> {
    let room = results.room();
    results.opened(sealed, 4)?; //~ E0499
    room[..4].copy_from_slice(&[2, 4, 0, 4]);
    Ok(())
}
