// The room of a plaintext is written before its result is given.
use lobzhinar::{NotItsTurn, Results, Sealed};

pub fn host(results: &mut Results<'_, '_, '_>, sealed: &Sealed<'_>) -> Result<(), NotItsTurn> {
    let room = results.room();
    room[..4].copy_from_slice(&[2, 4, 0, 4]);
    results.opened(sealed, 4)?;
    Ok(())
}
