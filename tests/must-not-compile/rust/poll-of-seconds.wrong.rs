// Seconds are taken for a poll interval.
use lobzhinar::{NtpHeaderV5, PollInterval};

pub fn host(header: &mut NtpHeaderV5) {
    header.poll = 64; //~ E0308
}
