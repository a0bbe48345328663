// The older header is made one of NTPv5.
use lobzhinar::{NtpHeaderV3V4, NtpVersionV3V4};

pub fn host(older: &mut NtpHeaderV3V4) {
    older.version = NtpVersionV3V4::V5; //~ E0599
}
