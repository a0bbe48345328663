// A length of time of NTPv5 is stored in its header.
use lobzhinar::{NtpHeaderV3V4, NtpHeaderV5};

pub fn host(older: &mut NtpHeaderV3V4, header: &mut NtpHeaderV5) {
    header.root_dispersion = header.root_delay;
}
