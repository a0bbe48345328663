// The leap of the older header is compared with one of its own.
use lobzhinar::{LeapBits, NtpHeaderV3V4, NtpLeapIndicator};

pub fn host(older: &NtpHeaderV3V4) -> bool {
    older.leap == LeapBits::Unsynchronized
}
