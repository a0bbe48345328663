// A header of NTPv5 is given to the reading of the older one.
use lobzhinar::{NtpHeaderV3V4, NtpHeaderV5, TimeReading};

pub fn host(older: &NtpHeaderV3V4, header: &NtpHeaderV5) -> TimeReading {
    NtpHeaderV3V4::time_reading(header) //~ E0308
}
