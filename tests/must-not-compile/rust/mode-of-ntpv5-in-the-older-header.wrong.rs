// A mode of NTPv5 is stored in the older header.
use lobzhinar::{NtpAssociationMode, NtpHeaderV3V4, NtpMode};

pub fn host(older: &mut NtpHeaderV3V4) {
    older.mode = NtpMode::Response; //~ E0308
}
