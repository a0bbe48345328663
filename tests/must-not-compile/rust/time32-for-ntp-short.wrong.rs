// A length of time of NTPv5 is stored in the older header, which counts another unit.
use lobzhinar::{NtpHeaderV3V4, NtpHeaderV5};

pub fn host(older: &mut NtpHeaderV3V4, header: &mut NtpHeaderV5) {
    older.root_delay = header.root_delay; //~ E0308
}
