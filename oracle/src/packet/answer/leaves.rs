//! The leaves of the reader: rounding, kinds and the frame of one field.

use super::domain::{LONGEST, Outside, inside};
use super::line::Answer;
use super::numbers;
use crate::format::{Parsed, Words};
use crate::packet::extension_fields::{ExtensionField, ExtensionHeaderVersion, probe};

pub fn round(words: &mut Words) -> Parsed<Answer> {
    let number: u16 = words.number()?;
    words.end()?;
    Ok(Answer::accepted(probe::round(number.into())))
}

pub fn kind(words: &mut Words) -> Parsed<Answer> {
    let version = words.version()?;
    let type_id = words.number()?;
    words.end()?;
    Ok(Answer::accepted(kind_of_type(version, type_id)))
}

/// The kind that a type is read as: the crate decodes a field of that type. Its
/// message is four zero bytes, which suit every kind.
pub fn kind_of_type(version: ExtensionHeaderVersion, type_id: u16) -> &'static str {
    let [high, low] = type_id.to_be_bytes();
    let field = [high, low, 0, 8, 0, 0, 0, 0];
    let framed = probe::frame(&field, version).expect("the field is whole");
    if framed.is_sealed() {
        return "NtsEncryptedField";
    }
    kind_of_field(&framed.decode().expect("the message suits every kind"))
}

/// The kind of a field that a reader reports.
pub fn kind_of_field(field: &ExtensionField) -> &'static str {
    match field {
        ExtensionField::Unknown { .. } => "Unknown",
        ExtensionField::UniqueIdentifier(_) => "UniqueIdentifier",
        ExtensionField::NtsCookie(_) => "NtsCookie",
        ExtensionField::NtsCookiePlaceholder { .. } => "NtsCookiePlaceholder",
        ExtensionField::InvalidNtsEncryptedField => "InvalidNtsEncryptedField",
        ExtensionField::DraftIdentification(_) => "DraftIdentification",
        ExtensionField::ReferenceIdRequest(_) => "ReferenceIdRequest",
        ExtensionField::ReferenceIdResponse(_) => "ReferenceIdResponse",
        ExtensionField::Padding(_) => unreachable!("padding is only ever written"),
    }
}

pub fn frame(words: &mut Words) -> Parsed<Answer> {
    let version = words.version()?;
    let at: u64 = words.number()?;
    let bytes = words.bytes()?;
    words.end()?;
    Ok(frame_at(version, at, &bytes).into())
}

fn frame_at(version: ExtensionHeaderVersion, at: u64, bytes: &[u8]) -> Result<Answer, Outside> {
    inside(bytes.len() <= LONGEST, Outside::PacketTooLong)?;
    // A header past the end is one of which no byte is there.
    let rest = bytes.get(at as usize..).unwrap_or(&[]);
    Ok(match probe::frame(rest, version) {
        Ok(field) => Answer::accepted(format_args!(
            "{} {} {}",
            field.type_id(),
            field.message().len(),
            field.taken()
        )),
        Err(refused) => numbers::refusal(&refused),
    })
}
