// A length of time is taken for one.
use lobzhinar::NtpHeaderV5;

pub fn host(header: &mut NtpHeaderV5) {
    header.root_delay = header.root_dispersion;
}
