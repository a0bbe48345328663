// A leap of the older header is stored in that of NTPv5.
use lobzhinar::{LeapBits, NtpHeaderV5, NtpLeapIndicator};

pub fn host(header: &mut NtpHeaderV5) {
    header.leap = LeapBits::Unsynchronized; //~ E0308
}
