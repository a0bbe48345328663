// The leap of the older header is compared with one of NTPv5.
use lobzhinar::{LeapBits, NtpHeaderV3V4, NtpLeapIndicator};

pub fn host(older: &NtpHeaderV3V4) -> bool {
    older.leap == NtpLeapIndicator::Unsynchronized //~ E0308
}
