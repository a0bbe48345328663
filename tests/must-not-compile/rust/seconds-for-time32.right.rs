// A header's length of time is made of its unit.
use lobzhinar::{NtpHeaderV5, Time32};

pub fn host(header: &mut NtpHeaderV5) {
    header.root_dispersion = Time32::from_units_of_2pow_minus_28_s(1 << 27);
}
