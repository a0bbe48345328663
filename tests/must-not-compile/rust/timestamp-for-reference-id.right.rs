// A reference id is taken for one.
use lobzhinar::{NtpHeaderV3V4, ReferenceId};

pub fn host(older: &mut NtpHeaderV3V4) {
    older.reference_id = ReferenceId::KISS_RATE;
}
