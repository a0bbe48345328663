// A leap of NTPv5 is stored in its header.
use lobzhinar::{LeapBits, NtpHeaderV5, NtpLeapIndicator};

pub fn host(header: &mut NtpHeaderV5) {
    header.leap = NtpLeapIndicator::Unsynchronized;
}
