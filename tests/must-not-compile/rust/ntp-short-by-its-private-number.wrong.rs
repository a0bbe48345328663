// A length of time is made without saying its unit.
use lobzhinar::NtpShort;

pub fn host() -> NtpShort {
    NtpShort(1) //~ E0423
}
