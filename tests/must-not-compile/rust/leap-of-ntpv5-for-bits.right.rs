// A leap of the older header is stored in it.
use lobzhinar::{LeapBits, NtpHeaderV3V4, NtpLeapIndicator};

pub fn host(older: &mut NtpHeaderV3V4) {
    older.leap = LeapBits::Unsynchronized;
}
