// The library turns a header's length of time into seconds.
use lobzhinar::NtpHeaderV5;

pub fn host(header: &NtpHeaderV5) -> bool {
    let most_seconds = 0.1;
    header.time_reading().distance_seconds < most_seconds
}
