// A number is taken for the leap of the older header.
use lobzhinar::{LeapBits, NtpHeaderV3V4};

pub fn host(older: &mut NtpHeaderV3V4) {
    older.leap = 3; //~ E0308
}
