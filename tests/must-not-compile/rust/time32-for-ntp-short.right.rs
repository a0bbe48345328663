// A length of time of the older header is stored in it.
use lobzhinar::{NtpHeaderV3V4, NtpHeaderV5};

pub fn host(older: &mut NtpHeaderV3V4, header: &mut NtpHeaderV5) {
    older.root_delay = older.root_dispersion;
}
