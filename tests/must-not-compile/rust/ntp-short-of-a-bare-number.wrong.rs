// A bare number is taken for a length of time.
use lobzhinar::{NtpHeaderV3V4, NtpShort};

pub fn host(older: &mut NtpHeaderV3V4) {
    older.root_delay = 65_536; //~ E0308
}
