// Seconds are taken for a length of time of the older header.
use lobzhinar::{NtpHeaderV3V4, NtpShort};

pub fn host(older: &mut NtpHeaderV3V4) {
    older.root_dispersion = 0.5; //~ E0308
}
