// A length of time of the older header is stored in that of NTPv5, which counts another unit.
use lobzhinar::{NtpHeaderV3V4, NtpHeaderV5};

pub fn host(older: &mut NtpHeaderV3V4, header: &mut NtpHeaderV5) {
    header.root_dispersion = older.root_dispersion; //~ E0308
}
