//! Which rules the extension fields of a packet follow.

use core::fmt;

/// How many bytes the header has, in all versions.
pub const HEADER_SIZE: usize = 48;

/// Which layout the extension fields of a packet have.
// As wide as what it stands beside: a struct with padding is copied slower.
#[derive(Copy, Clone, Debug, PartialEq, Eq, Hash, PartialOrd, Ord)]
#[repr(usize)]
pub enum ExtensionHeaderVersion {
    /// `NTPv4`: RFC 7822.
    V4 = 4,
    /// `NTPv5`: draft-ietf-ntp-ntpv5-08.
    V5 = 5,
}

impl ExtensionHeaderVersion {
    /// The number that the library takes for it.
    #[inline]
    pub(crate) const fn number(self) -> u8 {
        self as u8
    }
}

impl fmt::Display for ExtensionHeaderVersion {
    fn fmt(&self, f: &mut fmt::Formatter<'_>) -> fmt::Result {
        write!(f, "NTPv{}", self.number())
    }
}
