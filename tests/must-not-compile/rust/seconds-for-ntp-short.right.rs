// A length of time of the older header is made of its unit.
use lobzhinar::{NtpHeaderV3V4, NtpShort};

pub fn host(older: &mut NtpHeaderV3V4) {
    older.root_dispersion = NtpShort::from_units_of_2pow_minus_16_s(1 << 15);
}
