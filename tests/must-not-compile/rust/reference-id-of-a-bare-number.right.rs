// A reference id is made of its bytes.
use lobzhinar::{NtpHeaderV3V4, ReferenceId};

pub fn host(older: &mut NtpHeaderV3V4) {
    older.reference_id = ReferenceId::from_bytes(*b"DENY");
}
