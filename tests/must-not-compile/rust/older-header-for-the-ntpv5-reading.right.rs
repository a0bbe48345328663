// The older header is given to its own reading.
use lobzhinar::{NtpHeaderV3V4, NtpHeaderV5, TimeReading};

pub fn host(older: &NtpHeaderV3V4, header: &NtpHeaderV5) -> TimeReading {
    NtpHeaderV3V4::time_reading(older)
}
