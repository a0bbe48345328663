// A mode of the older header is stored in it.
use lobzhinar::{NtpAssociationMode, NtpHeaderV3V4, NtpMode};

pub fn host(older: &mut NtpHeaderV3V4) {
    older.mode = NtpAssociationMode::Server;
}
