// A point in time is taken for a reference id.
use lobzhinar::{NtpHeaderV3V4, ReferenceId};

pub fn host(older: &mut NtpHeaderV3V4) {
    older.reference_id = older.reference_timestamp; //~ E0308
}
