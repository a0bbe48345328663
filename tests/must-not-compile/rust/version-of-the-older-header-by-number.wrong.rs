// A number is taken for the version of the older header.
use lobzhinar::{NtpHeaderV3V4, NtpVersionV3V4};

pub fn host(older: &mut NtpHeaderV3V4) {
    older.version = 5; //~ E0308
}
