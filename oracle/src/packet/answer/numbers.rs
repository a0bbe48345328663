//! Document 01's number for each refusal of the crate.

use super::line::Answer;
use crate::packet::error::ParsingError;
use crate::packet::v5::V5Error;

/// A failed decryption: the lists and the remainder are reported with it.
pub const DECRYPT_ERROR: u16 = 5;

/// A request or response that cannot be made; the crate gives no value there.
pub const CANNOT_BE_MADE: u16 = 18;

/// The number of a refusal.
pub fn number<T>(refusal: &ParsingError<T>) -> u16 {
    match refusal {
        ParsingError::IncorrectLength => 1,
        ParsingError::MalformedCookiePlaceholder => 2,
        ParsingError::MalformedNtsExtensionFields => 3,
        ParsingError::V5(V5Error::InvalidDraftIdentification) => 4,
        ParsingError::DecryptError(_) => DECRYPT_ERROR,
        ParsingError::InvalidVersion(_) => 11,
        ParsingError::V5(V5Error::MalformedMode) => 12,
        ParsingError::V5(V5Error::MalformedTimescale) => 13,
        ParsingError::V5(V5Error::InvalidFlags) => 14,
        ParsingError::MalformedNonce => unreachable!("none of the four files refuses so"),
    }
}

/// The answer to a case that the crate refuses without naming a place.
pub fn refusal<T>(refusal: &ParsingError<T>) -> Answer {
    match refusal {
        ParsingError::InvalidVersion(version) => Answer::with(number(refusal), version),
        _ => Answer::number(number(refusal)),
    }
}
