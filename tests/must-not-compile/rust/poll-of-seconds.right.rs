// A poll interval is made of the byte of a header.
use lobzhinar::{NtpHeaderV5, PollInterval};

pub fn host(header: &mut NtpHeaderV5) {
    header.poll = PollInterval::from_byte(6);
}
