// A length of time is made of a number with its unit.
use lobzhinar::Time32;

pub fn host() -> Time32 {
    Time32::from_units_of_2pow_minus_28_s(1)
}
