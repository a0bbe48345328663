// A bare number is taken for a reference id.
use lobzhinar::{NtpHeaderV3V4, ReferenceId};

pub fn host(older: &mut NtpHeaderV3V4) {
    older.reference_id = 0x4445_4E59; //~ E0308
}
