// A result is given for a sealed field.
use lobzhinar::{NotItsTurn, Results, Survey};

pub fn host(survey: &Survey<'_, '_>, results: &mut Results<'_, '_, '_>) -> Result<(), NotItsTurn> {
    for sealed in survey {
        results.opened(&sealed, 16)?;
    }
    Ok(())
}
