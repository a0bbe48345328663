// The older header is given to the writer of NTPv5.
use lobzhinar::{NtpHeaderV3V4, NtpHeaderV5, Refusal};

pub fn host(older: &NtpHeaderV3V4, header: &NtpHeaderV5, out: &mut [u8]) -> Result<usize, Refusal> {
    NtpHeaderV5::serialize(older, out, 0) //~ E0308
}
