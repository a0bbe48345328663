// A leap of NTPv5, which has other numbers, is stored in the older header.
use lobzhinar::{LeapBits, NtpHeaderV3V4, NtpLeapIndicator};

pub fn host(older: &mut NtpHeaderV3V4) {
    older.leap = NtpLeapIndicator::Unsynchronized; //~ E0308
}
