// The older header is given to its own writer.
use lobzhinar::{NtpHeaderV3V4, NtpHeaderV5, Refusal};

pub fn host(older: &NtpHeaderV3V4, header: &NtpHeaderV5, out: &mut [u8]) -> Result<usize, Refusal> {
    NtpHeaderV3V4::serialize(older, out, 0)
}
