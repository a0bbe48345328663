// A length of time is made of a number with its unit.
use lobzhinar::NtpShort;

pub fn host() -> NtpShort {
    NtpShort::from_units_of_2pow_minus_16_s(1)
}
