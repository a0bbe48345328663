//! How a region is cut, what a type is read as, and what is in a sealed field:
//! sections 4, 5 and 6 of the rules.

use super::{Refusal, Version, number_in, rounded_up, told, version};
use crate::format::{Parsed, Words};

pub fn round(words: &mut Words) -> Parsed<String> {
    let number: u16 = words.number()?;
    Ok(told(Ok(rounded_up(number.into()).to_string())))
}

pub fn kind(words: &mut Words) -> Parsed<String> {
    let version = version(words)?;
    let type_id = words.number()?;
    Ok(told(Ok(kind_of(version, type_id).to_string())))
}

pub fn frame(words: &mut Words) -> Parsed<String> {
    let version = version(words)?;
    let at: u64 = words.number()?;
    let bytes = words.bytes()?;
    // Where the place is past the end, no byte of a field is there.
    let rest = bytes.get(at as usize..).unwrap_or(&[]);
    let frame = Frame::at_start_of(rest, version);
    Ok(told(frame.map(|frame| {
        format!("{} {} {}", frame.type_id, frame.message, frame.taken)
    })))
}

/// The type of sealed fields.
pub const SEALED: u16 = 0x0404;

/// Rule 5.1.
pub fn kind_of(version: Version, type_id: u16) -> &'static str {
    match (type_id, version) {
        (0x0104, _) => "UniqueIdentifier",
        (0x0204, _) => "NtsCookie",
        (0x0304, _) => "NtsCookiePlaceholder",
        (SEALED, _) => "NtsEncryptedField",
        (0xF5FF, Version::V5) => "DraftIdentification",
        (0xF503, Version::V5) => "ReferenceIdRequest",
        (0xF504, Version::V5) => "ReferenceIdResponse",
        _ => "Unknown",
    }
}

/// What the first four bytes of a field say of it.
pub struct Frame {
    pub type_id: u16,
    /// The length of the message, L - 4.
    pub message: usize,
    /// The wire length, L rounded up.
    pub taken: usize,
}

impl Frame {
    /// The frame of the field with which some bytes begin; they end where the
    /// region ends. Rules 4.1 to 4.5.
    pub fn at_start_of(region: &[u8], version: Version) -> Result<Self, Refusal> {
        if region.len() < 4 {
            return Err(1);
        }
        let length = number_in(&region[2..4]);
        let taken = rounded_up(length);
        if length < 4 || taken > region.len() {
            return Err(1);
        }
        if version == Version::V4 && length != taken {
            return Err(1);
        }
        Ok(Self {
            type_id: number_in(&region[..2]) as u16,
            message: length - 4,
            taken,
        })
    }

    /// The message of the field with which the bytes begin.
    pub fn message_of<'a>(&self, region: &'a [u8]) -> &'a [u8] {
        &region[4..4 + self.message]
    }
}

/// Whether another outer field is taken from so many bytes: rules 4.6 and 4.7.
pub fn goes_on(version: Version, remaining: usize) -> bool {
    match version {
        Version::V4 => remaining > 24,
        Version::V5 => remaining > 0,
    }
}

/// Rules 5.2 to 5.6.
pub fn test_contents(kind: &str, message: &[u8]) -> Result<(), Refusal> {
    match kind {
        "NtsCookiePlaceholder" if message.iter().any(|byte| *byte != 0) => Err(2),
        "DraftIdentification" if message.iter().any(|byte| *byte >= 128) => Err(4),
        "ReferenceIdRequest" if message.len() < 2 => Err(1),
        _ => Ok(()),
    }
}

/// Where nonce and ciphertext lie in the message of a sealed field.
pub struct Sealed {
    pub nonce_at: usize,
    pub nonce: usize,
    pub ciphertext_at: usize,
    pub ciphertext: usize,
}

impl Sealed {
    /// Rules 6.1 to 6.3.
    pub fn of(message: &[u8]) -> Result<Self, Refusal> {
        if message.len() < 4 {
            return Err(1);
        }
        let sealed = Self {
            nonce_at: 4,
            nonce: number_in(&message[..2]),
            ciphertext_at: 4 + rounded_up(number_in(&message[..2])),
            ciphertext: number_in(&message[2..4]),
        };
        let nonce_end = sealed.nonce_at + sealed.nonce;
        let ciphertext_end = sealed.ciphertext_at + sealed.ciphertext;
        if nonce_end > message.len() || ciphertext_end > message.len() {
            return Err(1);
        }
        Ok(sealed)
    }
}
