// A length of time is made without saying its unit.
use lobzhinar::Time32;

pub fn host() -> Time32 {
    Time32(1) //~ E0423
}
