// A leap of the older header is one of four.
use lobzhinar::{LeapBits, NtpHeaderV3V4};

pub fn host(older: &mut NtpHeaderV3V4) {
    older.leap = LeapBits::Unsynchronized;
}
