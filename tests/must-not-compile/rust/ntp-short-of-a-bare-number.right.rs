// A length of time is made of a number with its unit.
use lobzhinar::{NtpHeaderV3V4, NtpShort};

pub fn host(older: &mut NtpHeaderV3V4) {
    older.root_delay = NtpShort::from_units_of_2pow_minus_16_s(65_536);
}
