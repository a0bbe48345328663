// A number is taken for the mode of the older header.
use lobzhinar::{NtpAssociationMode, NtpHeaderV3V4};

pub fn host(older: &mut NtpHeaderV3V4) {
    older.mode = 8; //~ E0308
}
