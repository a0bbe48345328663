// Seconds are taken for a header's length of time.
use lobzhinar::{NtpHeaderV5, Time32};

pub fn host(header: &mut NtpHeaderV5) {
    header.root_dispersion = 0.5; //~ E0308
}
