// The mode of the older header is one of eight.
use lobzhinar::{NtpAssociationMode, NtpHeaderV3V4};

pub fn host(older: &mut NtpHeaderV3V4) {
    older.mode = NtpAssociationMode::Private;
}
