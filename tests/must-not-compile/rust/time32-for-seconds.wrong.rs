// A header's length of time is taken for seconds.
use lobzhinar::NtpHeaderV5;

pub fn host(header: &NtpHeaderV5) -> bool {
    let most_seconds = 0.1;
    header.root_delay < most_seconds //~ E0308
}
