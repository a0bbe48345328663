// A length of time is made of a number with its unit.
use lobzhinar::{NtpHeaderV5, Time32};

pub fn host(header: &mut NtpHeaderV5) {
    header.root_delay = Time32::from_units_of_2pow_minus_28_s(268_435_456);
}
