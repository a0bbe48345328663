// The version of the older header is one of two.
use lobzhinar::{NtpHeaderV3V4, NtpVersionV3V4};

pub fn host(older: &mut NtpHeaderV3V4) {
    older.version = NtpVersionV3V4::V3;
}
