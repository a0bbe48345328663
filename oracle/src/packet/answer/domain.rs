//! The domain of comparison: document 01, "Sizes and the domain of comparison".
//!
//! Outside it the paper decides and not the Rust, so the driver gives no answer
//! there. Each class has its line in the README.

use std::ops::RangeInclusive;

/// Neither a packet, a field's message nor an output is longer.
pub const LONGEST: usize = 65_535;

/// The most outer items and the most inner fields of one packet, and the most
/// entries of a survey.
pub const MOST_FIELDS: usize = 128;

/// The lengths of data for which the Rust writes a V4 field with length 0.
/// It refuses longer ones, as the rules do.
pub const WRONG_V4_DATA: RangeInclusive<usize> = 65_529..=65_531;

/// The longest data of a V5 or reference id field.
pub const LONGEST_V5_DATA: usize = 65_531;

/// The lengths of a MAC and of its body, by request (i). The Rust reads every
/// length between the first and the last, and writes any body.
pub const MAC_LENGTHS: [usize; 3] = [4, 20, 24];
pub const MAC_BODY_LENGTHS: [usize; 3] = [0, 16, 20];

/// Why a case is outside the domain.
#[derive(Debug, Copy, Clone, PartialEq, Eq)]
pub enum Outside {
    HeaderPastEnd,
    PacketTooLong,
    TooManyFields,
    ResultMissing,
    ResultIllFormed,
    CiphertextShorter,
    MessageTooLong,
    OutputTooLong,
    StartPastEnd,
    FieldTooLong,
    DraftNotAscii,
    RequestNotWritable,
    RequestSumWraps,
    FilterSize,
    MacLength,
    VersionBeforeLength,
    HeaderOfVersion5,
    HeaderNotWritable,
}

impl Outside {
    /// The name under which the comparison counts the class.
    pub fn name(self) -> &'static str {
        match self {
            Self::HeaderPastEnd => "header past the end",
            Self::PacketTooLong => "packet too long",
            Self::TooManyFields => "too many fields",
            Self::ResultMissing => "result missing",
            Self::ResultIllFormed => "result ill formed",
            Self::CiphertextShorter => "ciphertext shorter",
            Self::MessageTooLong => "message too long",
            Self::OutputTooLong => "output too long",
            Self::StartPastEnd => "start past the end",
            Self::FieldTooLong => "field too long",
            Self::DraftNotAscii => "draft not ascii",
            Self::RequestNotWritable => "request not writable",
            Self::RequestSumWraps => "request sum wraps",
            Self::FilterSize => "filter size",
            Self::MacLength => "mac length",
            Self::VersionBeforeLength => "version before length",
            Self::HeaderOfVersion5 => "header of version 5",
            Self::HeaderNotWritable => "header not writable",
        }
    }
}

/// The case is outside, for this reason, unless the condition holds.
pub fn inside(condition: bool, reason: Outside) -> Result<(), Outside> {
    if condition { Ok(()) } else { Err(reason) }
}
