//! Numbers of a header, each with a type of its own, so that a bare number or another unit is not taken for one. Each has
//! the layout of its struct in include/lobzhinar.h.

use crate::ffi;
use crate::header::TimeReading;

/// A length of time of `NTPv5`: the draft's type time32, a count of 2^-28 s. The longest is just under 16 s.
///
/// The older header counts 2^-16 s: [`NtpShort`] is another type, so that neither is taken for the other.
///
/// ```
/// use lobzhinar::Time32;
///
/// let time = Time32::from_units_of_2pow_minus_28_s(1 << 27);
/// assert_eq!(time.seconds(), 0.5);
/// ```
#[derive(Copy, Clone, Debug, PartialEq, Eq, Hash, PartialOrd, Ord)]
#[repr(C)]
pub struct Time32 {
    units_of_2pow_minus_28_s: u32,
}

impl Time32 {
    /// No time.
    pub const ZERO: Self = Self::from_units_of_2pow_minus_28_s(0);

    /// Of the number that stands in a header.
    #[must_use]
    pub const fn from_units_of_2pow_minus_28_s(units: u32) -> Self {
        Self {
            units_of_2pow_minus_28_s: units,
        }
    }

    /// The number that stands in a header.
    #[must_use]
    pub const fn units_of_2pow_minus_28_s(self) -> u32 {
        self.units_of_2pow_minus_28_s
    }

    /// Exactly as many seconds, by the library's time reading.
    #[must_use]
    pub fn seconds(self) -> f64 {
        TimeReading::of(self, Self::ZERO).delay_seconds
    }
}

/// A length of time of `NTPv3` and `NTPv4`: RFC 5905's short format, a count of 2^-16 s. The longest is just under
/// 65,536 s.
///
/// A [`Time32`] of the same count is 4,096 times shorter.
///
/// ```
/// use lobzhinar::NtpShort;
///
/// let time = NtpShort::from_units_of_2pow_minus_16_s(1 << 15);
/// assert_eq!(time.seconds(), 0.5);
/// ```
#[derive(Copy, Clone, Debug, PartialEq, Eq, Hash, PartialOrd, Ord)]
#[repr(C)]
pub struct NtpShort {
    units_of_2pow_minus_16_s: u32,
}

impl NtpShort {
    /// No time.
    pub const ZERO: Self = Self::from_units_of_2pow_minus_16_s(0);

    /// Of the number that stands in a header.
    #[must_use]
    pub const fn from_units_of_2pow_minus_16_s(units: u32) -> Self {
        Self {
            units_of_2pow_minus_16_s: units,
        }
    }

    /// The number that stands in a header.
    #[must_use]
    pub const fn units_of_2pow_minus_16_s(self) -> u32 {
        self.units_of_2pow_minus_16_s
    }

    /// Exactly as many seconds, by the library's time reading.
    #[must_use]
    pub fn seconds(self) -> f64 {
        TimeReading::of_v3v4(self, Self::ZERO).delay_seconds
    }
}

/// A point in time: a count of 2^-32 s since an era began.
///
/// Era 0 began with the year 1900, and an era has 2^32 s, so era 1 begins on 7 February 2036. The
/// [`era`](crate::NtpHeaderV5::era) of an `NTPv5` header says which era, and its
/// [`timescale`](crate::NtpHeaderV5::timescale) what a second is. The header of `NTPv3` and `NTPv4` has neither: the
/// host has to know the era.
///
/// There is no order: of two timestamps of different eras the later one may have the smaller number.
#[derive(Copy, Clone, Debug, PartialEq, Eq, Hash)]
#[repr(C)]
pub struct NtpTimestamp {
    units_of_2pow_minus_32_s_in_era: u64,
}

impl NtpTimestamp {
    /// Of the number that stands in a header.
    #[must_use]
    pub const fn from_units_of_2pow_minus_32_s_in_era(units: u64) -> Self {
        Self {
            units_of_2pow_minus_32_s_in_era: units,
        }
    }

    /// The number that stands in a header.
    #[must_use]
    pub const fn units_of_2pow_minus_32_s_in_era(self) -> u64 {
        self.units_of_2pow_minus_32_s_in_era
    }
}

/// The time between two requests: log2 of seconds, signed, as the byte of the header.
///
/// ```
/// use lobzhinar::PollInterval;
///
/// // 64 s, and half a second.
/// assert_eq!(PollInterval::from_byte(6).as_log2_seconds(), 6);
/// assert_eq!(PollInterval::from_byte(0xFF).as_log2_seconds(), -1);
/// ```
#[derive(Copy, Clone, Debug, PartialEq, Eq, Hash)]
#[repr(C)]
pub struct PollInterval {
    byte: u8,
}

impl PollInterval {
    /// Of the byte that stands in a header.
    #[must_use]
    pub const fn from_byte(byte: u8) -> Self {
        Self { byte }
    }

    /// The byte that stands in a header.
    #[must_use]
    pub const fn as_byte(self) -> u8 {
        self.byte
    }

    /// Its signed meaning: 6 stands for 64 s, -1 for half a second.
    #[must_use]
    pub fn as_log2_seconds(self) -> i8 {
        // SAFETY: it takes and returns a number.
        unsafe { ffi::ntp_poll_log2_seconds(self) }
    }
}

/// The server's cookie of a header: 8 bytes, big-endian. It is not an NTS cookie.
#[derive(Copy, Clone, Debug, PartialEq, Eq, Hash)]
#[repr(C)]
pub struct NtpServerCookie(pub u64);

/// The client's cookie of a header: 8 bytes, big-endian. It is not an NTS cookie.
#[derive(Copy, Clone, Debug, PartialEq, Eq, Hash)]
#[repr(C)]
pub struct NtpClientCookie(pub u64);

/// What the sender of an `NTPv3` or `NTPv4` header follows: four bytes. With stratum 0 they are a kiss code, with stratum
/// 1 the name of a clock, else they stand for a server.
///
/// ```
/// use lobzhinar::ReferenceId;
///
/// assert_eq!(ReferenceId::from_bytes(*b"RATE"), ReferenceId::KISS_RATE);
/// ```
#[derive(Copy, Clone, Debug, PartialEq, Eq, Hash)]
#[repr(C)]
pub struct ReferenceId(u32);

impl ReferenceId {
    /// The server denies service.
    pub const KISS_DENY: Self = Self::from_bytes(*b"DENY");
    /// The client asks too often.
    pub const KISS_RATE: Self = Self::from_bytes(*b"RATE");
    /// The server denies service to this client by its rules.
    pub const KISS_RSTR: Self = Self::from_bytes(*b"RSTR");
    /// The server could not authenticate the request: NTS.
    pub const KISS_NTSN: Self = Self::from_bytes(*b"NTSN");

    /// Of the bytes that stand in a header.
    #[must_use]
    pub const fn from_bytes(bytes: [u8; 4]) -> Self {
        Self(u32::from_be_bytes(bytes))
    }

    /// The bytes that stand in a header.
    #[must_use]
    pub const fn to_bytes(self) -> [u8; 4] {
        self.0.to_be_bytes()
    }
}
