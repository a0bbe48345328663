//! The header of `NTPv3` and `NTPv4`.

use crate::ffi;
use crate::header::{HeaderError, TimeReading};
use crate::refusal::Refusal;
use crate::units::{NtpShort, NtpTimestamp, PollInterval, ReferenceId};

/// Whether a leap second comes: the two bits of the header, as they stand.
///
/// It is another type than [`NtpLeapIndicator`](crate::NtpLeapIndicator), which has other numbers: there 3 is a clock
/// that is synchronized.
#[derive(Copy, Clone, Debug, PartialEq, Eq, Hash)]
#[repr(u8)]
pub enum LeapBits {
    /// None.
    NoWarning = 0,
    /// The last minute of the day has 61 seconds.
    Leap61 = 1,
    /// The last minute of the day has 59 seconds.
    Leap59 = 2,
    /// Not synchronized.
    Unsynchronized = 3,
}

/// Which of the two versions a header is of.
#[derive(Copy, Clone, Debug, PartialEq, Eq, Hash, PartialOrd, Ord)]
#[repr(u8)]
pub enum NtpVersionV3V4 {
    /// `NTPv3`.
    V3 = 3,
    /// `NTPv4`.
    V4 = 4,
}

/// Who sends the packet.
#[derive(Copy, Clone, Debug, PartialEq, Eq, Hash)]
#[repr(u8)]
pub enum NtpAssociationMode {
    /// No mode.
    Reserved = 0,
    /// A peer, of its own accord.
    SymmetricActive = 1,
    /// A peer that was asked.
    SymmetricPassive = 2,
    /// A client.
    Client = 3,
    /// A server that was asked.
    Server = 4,
    /// A server, to all.
    Broadcast = 5,
    /// A control message: its other bytes have another meaning.
    Control = 6,
    /// For private use.
    Private = 7,
}

/// The header of an `NTPv3` or `NTPv4` packet: RFC 5905.
///
/// ```
/// use lobzhinar::*;
///
/// let header = NtpHeaderV3V4 {
///     leap: LeapBits::NoWarning,
///     version: NtpVersionV3V4::V4,
///     mode: NtpAssociationMode::Server,
///     stratum: 1,
///     poll: PollInterval::from_byte(6),
///     precision_log2_seconds: -20,
///     root_delay: NtpShort::from_units_of_2pow_minus_16_s(1 << 16),
///     root_dispersion: NtpShort::from_units_of_2pow_minus_16_s(1 << 15),
///     reference_id: ReferenceId::from_bytes(*b"GPS\0"),
///     reference_timestamp: NtpTimestamp::from_units_of_2pow_minus_32_s_in_era(0),
///     origin_timestamp: NtpTimestamp::from_units_of_2pow_minus_32_s_in_era(0),
///     receive_timestamp: NtpTimestamp::from_units_of_2pow_minus_32_s_in_era(0),
///     transmit_timestamp: NtpTimestamp::from_units_of_2pow_minus_32_s_in_era(0),
/// };
/// let mut packet = [0; HEADER_SIZE];
/// assert_eq!(header.serialize(&mut packet, 0), Ok(HEADER_SIZE));
/// assert_eq!(NtpHeaderV3V4::deserialize(&packet), Ok(header));
/// // Half of the delay of 1 s, plus the dispersion of 0.5 s.
/// assert_eq!(header.time_reading().distance_seconds, 1.0);
/// ```
#[derive(Copy, Clone, Debug, PartialEq, Eq, Hash)]
pub struct NtpHeaderV3V4 {
    /// Whether a leap second comes.
    pub leap: LeapBits,
    /// Which version.
    pub version: NtpVersionV3V4,
    /// Who sends the packet.
    pub mode: NtpAssociationMode,
    /// How many servers are between this one and a reference clock.
    pub stratum: u8,
    /// The time between two requests.
    pub poll: PollInterval,
    /// How precise the sender's clock is: log2 of seconds. -20 stands for about a microsecond.
    pub precision_log2_seconds: i8,
    /// The round trip to the reference clock.
    pub root_delay: NtpShort,
    /// How far the sender's clock may be off, but for the root delay.
    pub root_dispersion: NtpShort,
    /// A clock, a server or a kiss code, by the stratum.
    pub reference_id: ReferenceId,
    /// When the server's clock was last set.
    pub reference_timestamp: NtpTimestamp,
    /// When the request left the client.
    pub origin_timestamp: NtpTimestamp,
    /// When it came to the server.
    pub receive_timestamp: NtpTimestamp,
    /// When the response left it.
    pub transmit_timestamp: NtpTimestamp,
}

impl NtpHeaderV3V4 {
    /// Reads the header in the first 48 bytes; what follows them is not looked at.
    ///
    /// # Errors
    ///
    /// There are fewer bytes, or the version is neither 3 nor 4.
    pub fn deserialize(data: &[u8]) -> Result<Self, HeaderError> {
        // SAFETY: the pointer is of a slice, with its length, and the reply is stored whole.
        let reply: ffi::NtpHeaderV3V4Read = unsafe {
            ffi::stored(|reply| ffi::ntp_raw_header_v3v4_read(reply, data.as_ptr(), data.len()))
        };
        HeaderError::check(reply.number, reply.version_seen)?;
        Ok(Self::of(&reply.header))
    }

    /// The header that an accepted reply has; each of its numbers stands for something.
    fn of(header: &ffi::NtpHeaderV3V4) -> Self {
        Self {
            leap: match header.leap.bits {
                0 => LeapBits::NoWarning,
                1 => LeapBits::Leap61,
                2 => LeapBits::Leap59,
                _ => LeapBits::Unsynchronized,
            },
            version: match header.version {
                3 => NtpVersionV3V4::V3,
                _ => NtpVersionV3V4::V4,
            },
            mode: match header.mode {
                0 => NtpAssociationMode::Reserved,
                1 => NtpAssociationMode::SymmetricActive,
                2 => NtpAssociationMode::SymmetricPassive,
                3 => NtpAssociationMode::Client,
                4 => NtpAssociationMode::Server,
                5 => NtpAssociationMode::Broadcast,
                6 => NtpAssociationMode::Control,
                _ => NtpAssociationMode::Private,
            },
            stratum: header.stratum,
            poll: header.poll,
            precision_log2_seconds: header.precision_log2_seconds,
            root_delay: header.root_delay,
            root_dispersion: header.root_dispersion,
            reference_id: header.reference_id,
            reference_timestamp: header.reference_timestamp,
            origin_timestamp: header.origin_timestamp,
            receive_timestamp: header.receive_timestamp,
            transmit_timestamp: header.transmit_timestamp,
        }
    }

    /// Writes it to `out` after its first `offset` bytes. Returns how many bytes were written: 48.
    ///
    /// # Errors
    ///
    /// [`Refusal::NoRoom`]. Nothing is written then.
    pub fn serialize(&self, out: &mut [u8], offset: usize) -> Result<usize, Refusal> {
        let leap = ffi::NtpLeapBits {
            bits: self.leap as u8,
        };
        // SAFETY: the pointer is of a slice, with its length.
        let reply = unsafe {
            ffi::ntp_raw_header_v3v4_write(
                leap,
                self.version as u8,
                self.mode as u8,
                self.poll,
                self.root_delay,
                self.root_dispersion,
                self.stratum,
                self.precision_log2_seconds,
                self.reference_id,
                self.reference_timestamp,
                self.origin_timestamp,
                self.receive_timestamp,
                self.transmit_timestamp,
                out.as_mut_ptr(),
                out.len(),
                offset,
            )
        };
        Refusal::check(reply.number)?;
        Ok(reply.len)
    }

    /// What its root delay and root dispersion are in seconds.
    #[must_use]
    pub fn time_reading(&self) -> TimeReading {
        TimeReading::of_v3v4(self.root_delay, self.root_dispersion)
    }
}
