// The older header is given to the reading of NTPv5.
use lobzhinar::{NtpHeaderV3V4, NtpHeaderV5, TimeReading};

pub fn host(older: &NtpHeaderV3V4, header: &NtpHeaderV5) -> TimeReading {
    NtpHeaderV5::time_reading(older) //~ E0308
}
