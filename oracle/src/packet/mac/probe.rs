//! Makes a MAC of any parts and tells its parts, which are private.

use super::Mac;
use std::borrow::Cow;

pub fn make(keyid: u32, body: &[u8]) -> Mac<'_> {
    Mac {
        keyid,
        mac: Cow::Borrowed(body),
    }
}

pub fn parts<'a>(mac: &'a Mac<'_>) -> (u32, &'a [u8]) {
    (mac.keyid, &mac.mac)
}
