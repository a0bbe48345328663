// A header of NTPv5 is given to the writer of the older one.
use lobzhinar::{NtpHeaderV3V4, NtpHeaderV5, Refusal};

pub fn host(older: &NtpHeaderV3V4, header: &NtpHeaderV5, out: &mut [u8]) -> Result<usize, Refusal> {
    NtpHeaderV3V4::serialize(header, out, 0) //~ E0308
}
