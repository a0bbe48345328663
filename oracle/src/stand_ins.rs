//! The types of ntp-proto that the headers are made of, and stand-ins for types
//! around them.
//!
//! Timestamp, duration, poll interval, reference id and leap indicator are the
//! crate's own: the rules keep every number of a header raw, and so their
//! conversions from and to the wire have to lose nothing. `oracle/build` cuts them
//! out of the crate's files. What only the response builders call (they are left
//! out of the port) is a stand-in, so that their file compiles unchanged, and
//! nothing of the oracle runs it.

pub use crate::packet::NtpLeapIndicator;

include!("original/time_types.rs");
include!("original/identifiers.rs");

/// The system's clock, for response builders alone.
pub trait NtpClock {
    fn now(&self) -> std::io::Result<NtpTimestamp>;
}

/// The system's state, for response builders alone.
pub struct SystemSnapshot {
    pub stratum: u8,
    pub time_snapshot: TimeSnapshot,
}

/// The part of the system's state that is about time.
pub struct TimeSnapshot {
    pub leap_indicator: NtpLeapIndicator,
    pub precision: Precision,
    pub root_delay: NtpDuration,
}

impl TimeSnapshot {
    pub fn root_dispersion(&self, _at: NtpTimestamp) -> NtpDuration {
        unreachable!("only response builders ask for the dispersion")
    }
}

/// The clock's precision, for response builders alone.
pub struct Precision;

impl Precision {
    pub fn log2(&self) -> i8 {
        unreachable!("only response builders ask for the precision")
    }
}

/// Random cookies are left out of the port; no answer asks for one.
pub fn random() -> [u8; 8] {
    unreachable!("no answer depends on a random cookie")
}
