//! The lists of the crate's reply, each field with its place in the chain.

use super::case::Case;
use super::chain::{Chain, Place};
use super::leaves::{kind_of_field, kind_of_type};
use crate::format;
use crate::packet::extension_fields::{ExtensionField, ExtensionFieldData, ExtensionHeaderVersion};
use std::borrow::Cow;

/// The crate's reply does not fit the chain of fields, so that the offsets
/// cannot be relied on.
pub struct Disagreement;

pub fn agree(condition: bool) -> Result<(), Disagreement> {
    if condition { Ok(()) } else { Err(Disagreement) }
}

/// The words OUTER, INNER and REMAINDER.
pub fn lists(
    case: &Case,
    chain: &Chain,
    fields: &ExtensionFieldData,
    remainder: &[u8],
) -> Result<String, Disagreement> {
    agree(chain.fault.is_none())?;
    agree(std::ptr::eq(remainder, &case.packet[chain.end..]))?;
    let outer = [(&fields.authenticated, 'a'), (&fields.untrusted, 'u')];
    let outer = entries(&outer, &chain.outer, |field, place| {
        agree(has_kind_of(field, place, case.version))?;
        let message = place.message_in(&case.packet).ok_or(Disagreement)?;
        agree(is_of_packet(field, message))?;
        Ok(message)
    })?;
    let inner = [(&fields.encrypted, 'e')];
    let inner = entries(&inner, &chain.inner, |field, place| {
        agree(has_kind_of(field, place, case.version))?;
        let message = place.message_in(&case.plain).ok_or(Disagreement)?;
        agree(is_of_plaintext(field, message))?;
        Ok(message)
    })?;
    Ok(format!("{outer} {inner} {}", remainder.len()))
}

/// The fields of some lists, each with the numbers of its place, at which it is
/// to lie, and its bytes. The letter is the trust class of a list.
fn entries<'b>(
    lists: &[(&Vec<ExtensionField>, char)],
    places: &[Place],
    found_at: impl Fn(&ExtensionField, &Place) -> Result<&'b [u8], Disagreement>,
) -> Result<String, Disagreement> {
    let mut entries = Vec::new();
    let mut places = places.iter();
    for (fields, trust) in lists {
        for field in fields.iter() {
            let place = places.next().ok_or(Disagreement)?;
            let found = found_at(field, place)?;
            entries.push(entry(field, place, *trust, &message_bytes(field, found)));
        }
    }
    agree(places.next().is_none())?;
    Ok(format::list(&entries))
}

fn entry(field: &ExtensionField, place: &Place, trust: char, bytes: &[u8]) -> String {
    format!(
        "{}:{}:{}:{}:{}:{trust}:{}",
        kind_of_field(field),
        place.type_id,
        place.offset,
        place.message,
        place.taken,
        format::hex(bytes)
    )
}

/// The message of a field as the crate's reply has it: its own bytes, and for a
/// placeholder as many zeros as it counts. Of a request and of a marker the crate
/// keeps no bytes, so that those found at the field's place have to serve.
fn message_bytes<'a>(field: &'a ExtensionField, found: &'a [u8]) -> Cow<'a, [u8]> {
    match field {
        ExtensionField::NtsCookiePlaceholder { cookie_length } => {
            vec![0; usize::from(*cookie_length)].into()
        }
        _ => bytes(field).unwrap_or(found).into(),
    }
}

/// Whether a field has the kind that the type at its place is read as; a failure
/// marker stands where a sealed field is.
fn has_kind_of(field: &ExtensionField, place: &Place, version: ExtensionHeaderVersion) -> bool {
    let kind = kind_of_type(version, place.type_id);
    match field {
        ExtensionField::InvalidNtsEncryptedField => kind == "NtsEncryptedField",
        ExtensionField::Unknown { type_id, .. } => kind == "Unknown" && *type_id == place.type_id,
        _ => kind == kind_of_field(field),
    }
}

/// Whether an outer field is the one with this message. Its bytes are borrowed
/// from the packet, so that the places themselves are compared.
fn is_of_packet(field: &ExtensionField, message: &[u8]) -> bool {
    match bytes(field) {
        Some(bytes) => std::ptr::eq(bytes, message),
        None => has_numbers_of(field, message),
    }
}

/// Whether an inner field is the one with this message. Its bytes are a copy, so
/// that only the contents can be compared.
fn is_of_plaintext(field: &ExtensionField, message: &[u8]) -> bool {
    match bytes(field) {
        Some(bytes) => bytes == message,
        None => has_numbers_of(field, message),
    }
}

/// The bytes that a field of the crate's reply holds, if it holds any.
fn bytes<'a>(field: &'a ExtensionField) -> Option<&'a [u8]> {
    match field {
        ExtensionField::UniqueIdentifier(data)
        | ExtensionField::NtsCookie(data)
        | ExtensionField::Unknown { data, .. } => Some(data),
        ExtensionField::DraftIdentification(text) => Some(text.as_bytes()),
        ExtensionField::ReferenceIdResponse(response) => Some(response.bytes()),
        _ => None,
    }
}

/// Whether the numbers that the crate keeps in place of a message are those of
/// this message.
fn has_numbers_of(field: &ExtensionField, message: &[u8]) -> bool {
    match field {
        ExtensionField::NtsCookiePlaceholder { cookie_length } => {
            usize::from(*cookie_length) == message.len()
        }
        ExtensionField::ReferenceIdRequest(request) => {
            usize::from(request.payload_len()) == message.len()
                && message.starts_with(&request.offset().to_be_bytes())
        }
        // A marker keeps no number of its field.
        _ => matches!(field, ExtensionField::InvalidNtsEncryptedField),
    }
}
