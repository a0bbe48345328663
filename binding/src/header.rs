//! The header of `NTPv5`, and what both headers share: their error and the time reading.

use crate::ffi;
use crate::refusal::Refusal;
use crate::units::{
    NtpClientCookie, NtpServerCookie, NtpShort, NtpTimestamp, PollInterval, Time32,
};
use core::error::Error;
use core::fmt;

/// Which era the timestamps of a header count from. Era 0 began with the year 1900.
#[derive(Copy, Clone, Debug, PartialEq, Eq, Hash, PartialOrd, Ord)]
pub struct NtpEra(pub u8);

/// Whether a leap second comes. The header has one number for the last two: its synchronized flag tells them apart.
#[derive(Copy, Clone, Debug, PartialEq, Eq, Hash)]
#[repr(u8)]
pub enum NtpLeapIndicator {
    /// None.
    NoWarning = 0,
    /// The last minute of the day has 61 seconds.
    Leap61 = 1,
    /// The last minute of the day has 59 seconds.
    Leap59 = 2,
    /// Synchronized, and whether a leap second comes is not known.
    Unknown = 3,
    /// Not synchronized.
    Unsynchronized = 4,
}

/// Who sends the packet.
#[derive(Copy, Clone, Debug, PartialEq, Eq, Hash)]
#[repr(u8)]
pub enum NtpMode {
    /// A client.
    Request = 3,
    /// A server.
    Response = 4,
}

/// What a second of the timestamps is.
#[derive(Copy, Clone, Debug, PartialEq, Eq, Hash)]
#[repr(u8)]
pub enum NtpTimescale {
    /// UTC.
    Utc = 0,
    /// TAI.
    Tai = 1,
    /// UT1.
    Ut1 = 2,
    /// UTC with smeared leap seconds.
    LeapSmearedUtc = 3,
}

/// The flags of a header.
#[derive(Copy, Clone, Debug, PartialEq, Eq, Hash)]
pub struct NtpFlags {
    /// The clock is synchronized.
    pub synchronized: bool,
    /// Interleaved mode.
    pub interleaved_mode: bool,
    /// The server could not authenticate the request.
    pub authnak: bool,
}

/// The header of an `NTPv5` packet.
#[derive(Copy, Clone, Debug, PartialEq, Eq, Hash)]
pub struct NtpHeaderV5 {
    /// Whether a leap second comes.
    pub leap: NtpLeapIndicator,
    /// Who sends the packet.
    pub mode: NtpMode,
    /// How many servers are between this one and a reference clock.
    pub stratum: u8,
    /// The time between two requests.
    pub poll: PollInterval,
    /// How precise the sender's clock is: log2 of seconds. -20 stands for about a microsecond.
    pub precision_log2_seconds: i8,
    /// What a second of the timestamps is.
    pub timescale: NtpTimescale,
    /// Which era the timestamps count from.
    pub era: NtpEra,
    /// The flags.
    pub flags: NtpFlags,
    /// The round trip to the reference clock.
    pub root_delay: Time32,
    /// How far the sender's clock may be off, but for the root delay.
    pub root_dispersion: Time32,
    /// A number of the server's, for interleaved mode.
    pub server_cookie: NtpServerCookie,
    /// A number of the client's, by which it knows the response.
    pub client_cookie: NtpClientCookie,
    /// When the request came to the server.
    pub receive_timestamp: NtpTimestamp,
    /// When the response left it.
    pub transmit_timestamp: NtpTimestamp,
}

/// Why a header is not read.
#[derive(Copy, Clone, Debug, PartialEq, Eq, Hash)]
pub enum HeaderError {
    /// It is of this version, which has another header or none: number 11.
    InvalidVersion(u8),
    /// Another refusal: 1, and for `NTPv5` 12, 13 or 14.
    Refused(Refusal),
}

impl HeaderError {
    /// What a reply's number and the version beside it say: nothing for 0.
    pub(crate) fn check(number: usize, version_seen: usize) -> Result<(), Self> {
        Refusal::check(number).map_err(|refusal| match refusal {
            Refusal::InvalidVersion => {
                #[expect(
                    clippy::cast_possible_truncation,
                    reason = "a version has 3 bits on the wire"
                )]
                let version = version_seen as u8;
                Self::InvalidVersion(version)
            }
            refusal => Self::Refused(refusal),
        })
    }

    /// The number of rule 2.1.
    #[must_use]
    pub const fn number(self) -> u8 {
        self.refusal().number()
    }

    /// Why.
    #[must_use]
    pub const fn refusal(self) -> Refusal {
        match self {
            Self::InvalidVersion(_) => Refusal::InvalidVersion,
            Self::Refused(refusal) => refusal,
        }
    }
}

impl fmt::Display for HeaderError {
    fn fmt(&self, f: &mut fmt::Formatter<'_>) -> fmt::Result {
        match self {
            Self::InvalidVersion(version) => {
                write!(f, "the version is {version}, which is not this header's")
            }
            Self::Refused(refusal) => refusal.fmt(f),
        }
    }
}

impl Error for HeaderError {}

impl From<HeaderError> for Refusal {
    fn from(error: HeaderError) -> Self {
        error.refusal()
    }
}

impl NtpHeaderV5 {
    /// Reads the header in the first 48 bytes; what follows them is not looked at.
    ///
    /// # Errors
    ///
    /// There are fewer bytes, or version, mode, timescale or flags are not those of an `NTPv5` header.
    pub fn deserialize(data: &[u8]) -> Result<Self, HeaderError> {
        // SAFETY: the pointer is of a slice, with its length, and the reply is stored whole.
        let reply: ffi::NtpHeaderRead = unsafe {
            ffi::stored(|reply| ffi::ntp_raw_header_read(reply, data.as_ptr(), data.len()))
        };
        HeaderError::check(reply.number, reply.version_seen)?;
        Ok(Self::of(&reply.header))
    }

    /// The header that an accepted reply has; each of its numbers stands for something.
    fn of(header: &ffi::NtpHeader) -> Self {
        Self {
            leap: match header.leap {
                0 => NtpLeapIndicator::NoWarning,
                1 => NtpLeapIndicator::Leap61,
                2 => NtpLeapIndicator::Leap59,
                3 => NtpLeapIndicator::Unknown,
                _ => NtpLeapIndicator::Unsynchronized,
            },
            mode: match header.mode {
                3 => NtpMode::Request,
                _ => NtpMode::Response,
            },
            stratum: header.stratum,
            poll: header.poll,
            precision_log2_seconds: header.precision_log2_seconds,
            timescale: match header.timescale {
                0 => NtpTimescale::Utc,
                1 => NtpTimescale::Tai,
                2 => NtpTimescale::Ut1,
                _ => NtpTimescale::LeapSmearedUtc,
            },
            era: NtpEra(header.era),
            flags: NtpFlags {
                synchronized: header.flags & 1 != 0,
                interleaved_mode: header.flags & 2 != 0,
                authnak: header.flags & 4 != 0,
            },
            root_delay: header.root_delay,
            root_dispersion: header.root_dispersion,
            server_cookie: header.server_cookie,
            client_cookie: header.client_cookie,
            receive_timestamp: header.receive_timestamp,
            transmit_timestamp: header.transmit_timestamp,
        }
    }

    /// Writes it to `out` after its first `offset` bytes. Returns how many bytes were written: 48.
    ///
    /// # Errors
    ///
    /// [`Refusal::NoRoom`].
    pub fn serialize(&self, out: &mut [u8], offset: usize) -> Result<usize, Refusal> {
        let flags = u8::from(self.flags.synchronized)
            + u8::from(self.flags.interleaved_mode) * 2
            + u8::from(self.flags.authnak) * 4;
        // SAFETY: the pointer is of a slice, with its length.
        let reply = unsafe {
            ffi::ntp_raw_header_write(
                self.leap as u8,
                self.mode as u8,
                self.stratum,
                self.poll,
                self.precision_log2_seconds,
                self.timescale as u8,
                self.era.0,
                flags,
                self.root_delay,
                self.root_dispersion,
                self.server_cookie,
                self.client_cookie,
                self.receive_timestamp,
                self.transmit_timestamp,
                out.as_mut_ptr(),
                out.len(),
                offset,
            )
        };
        Refusal::check(reply.number)?;
        Ok(reply.len)
    }

    /// What its root delay and root dispersion are in seconds.
    #[must_use]
    pub fn time_reading(&self) -> TimeReading {
        TimeReading::of(self.root_delay, self.root_dispersion)
    }
}

/// Seconds, each of them exact: no rounding occurs.
#[derive(Copy, Clone, Debug, PartialEq)]
#[repr(C)]
pub struct TimeReading {
    /// The root delay.
    pub delay_seconds: f64,
    /// The root dispersion.
    pub dispersion_seconds: f64,
    /// Half of the delay plus the dispersion, as RFC 5905 counts them. It is the header's part alone: half of the
    /// delay of the host's own exchange with the server, its dispersion and jitter, and a share for the time since,
    /// are the host's to add. Before 0.4.0 the whole delay was counted: look again at a limit that was set for that
    /// figure.
    pub distance_seconds: f64,
}

impl TimeReading {
    pub(crate) fn of(root_delay: Time32, root_dispersion: Time32) -> Self {
        // SAFETY: the reply is stored whole.
        unsafe { ffi::stored(|reply| ffi::ntp_raw_reading(reply, root_delay, root_dispersion)) }
    }

    pub(crate) fn of_v3v4(root_delay: NtpShort, root_dispersion: NtpShort) -> Self {
        // SAFETY: the reply is stored whole.
        unsafe {
            ffi::stored(|reply| ffi::ntp_raw_reading_v3v4(reply, root_delay, root_dispersion))
        }
    }
}
