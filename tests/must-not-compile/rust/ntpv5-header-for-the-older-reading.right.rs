// A header of NTPv5 is given to its own reading.
use lobzhinar::{NtpHeaderV3V4, NtpHeaderV5, TimeReading};

pub fn host(older: &NtpHeaderV3V4, header: &NtpHeaderV5) -> TimeReading {
    NtpHeaderV5::time_reading(header)
}
