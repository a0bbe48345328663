// A point in time is taken for a length of time.
use lobzhinar::NtpHeaderV5;

pub fn host(header: &mut NtpHeaderV5) {
    header.root_delay = header.receive_timestamp; //~ E0308
}
