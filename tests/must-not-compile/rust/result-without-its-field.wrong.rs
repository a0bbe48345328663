// A result is given without saying for which sealed field.
use lobzhinar::{NotItsTurn, Results, Survey};

pub fn host(survey: &Survey<'_, '_>, results: &mut Results<'_, '_, '_>) -> Result<(), NotItsTurn> {
    for sealed in survey {
        results.opened(16)?; //~ E0061
    }
    Ok(())
}
