// A bare number is taken for a length of time.
use lobzhinar::{NtpHeaderV5, Time32};

pub fn host(header: &mut NtpHeaderV5) {
    header.root_delay = 268_435_456; //~ E0308
}
