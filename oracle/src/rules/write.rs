//! Writing: sections 12 and 13 of the rules.

use super::reference_ids::{request_bytes, response_bytes};
use super::{LONGEST, Output, Refusal, Version, rounded_up, two_bytes, version};
use crate::format::{MOST_ENTRIES, NotACase, Parsed, Words, bytes, hex, number};

/// A field to write: rule 12.1.
enum Field {
    /// An Unknown field, a UniqueIdentifier or an NtsCookie.
    Bytes(u16, Vec<u8>),
    Placeholder(u16),
    Draft(Vec<u8>),
    Padding(u64),
    Request(u16, u16),
    Response(Vec<u8>),
    Marker,
}

struct Case {
    version: Version,
    has_cipher: bool,
    nonce: Vec<u8>,
    ciphertext: Vec<u8>,
    output: Output,
    authenticated: Vec<Field>,
    sealed: Vec<Field>,
    untrusted: Vec<Field>,
}

pub fn write(words: &mut Words) -> Parsed<String> {
    let mut case = Case {
        version: version(words)?,
        has_cipher: words.flag()?,
        nonce: words.bytes()?,
        ciphertext: words.bytes()?,
        output: Output::of(words)?,
        authenticated: fields(words)?,
        sealed: fields(words)?,
        untrusted: fields(words)?,
    };
    if case.authenticated.len() + case.sealed.len() + case.untrusted.len() > MOST_ENTRIES {
        return Err(NotACase);
    }
    let start = case.output.start;
    let done = stage_one(&mut case).and_then(|plaintext| stage_two(&mut case).map(|()| plaintext));
    let (count, output) = (case.output.start - start, hex(&case.output.bytes));
    Ok(match done {
        Ok(plaintext) => format!("0 {count} {} {output}", hex(&plaintext)),
        Err(number) => format!("{number} {output}"),
    })
}

fn fields(words: &mut Words) -> Parsed<Vec<Field>> {
    words.list()?.iter().map(|parts| field(parts)).collect()
}

fn field(parts: &[&str]) -> Parsed<Field> {
    Ok(match *parts {
        ["unknown", type_id, data] => Field::Bytes(number(type_id)?, bytes(data)?),
        ["uid", data] => Field::Bytes(0x0104, bytes(data)?),
        ["cookie", data] => Field::Bytes(0x0204, bytes(data)?),
        ["placeholder", length] => Field::Placeholder(number(length)?),
        ["draft", data] => Field::Draft(bytes(data)?),
        ["padding", length] => Field::Padding(number(length)?),
        ["request", payload, offset] => Field::Request(number(payload)?, number(offset)?),
        ["response", data] => Field::Response(bytes(data)?),
        ["marker"] => Field::Marker,
        _ => return Err(NotACase),
    })
}

/// Writes the authenticated fields, and returns the plaintext: rules 13.1, 13.2
/// and 13.9.
fn stage_one(case: &mut Case) -> Result<Vec<u8>, Refusal> {
    if has_sealed_field(case) && !case.has_cipher {
        return Err(17);
    }
    let room = case.output.room()?;
    let written = all_bytes(&case.authenticated, case.version, |_| 16, Vec::new(), room)?;
    // Rule 13.1: the plaintext has an output of its own, from byte 0 on.
    let plaintext = all_bytes(&case.sealed, case.version, |_| 0, Vec::new(), LONGEST)?;
    case.output.put(&written)?;
    Ok(plaintext)
}

/// Writes the sealed field and the untrusted fields: rules 13.3 and 13.9.
fn stage_two(case: &mut Case) -> Result<(), Refusal> {
    let room = case.output.room()?;
    let mut written = Vec::new();
    if has_sealed_field(case) {
        written = sealed_field(&case.nonce, &case.ciphertext, room)?;
    }
    let last = case.untrusted.len().saturating_sub(1);
    let minimum = |place| match case.version {
        Version::V4 if place == last => 28,
        Version::V4 => 16,
        Version::V5 => 4,
    };
    let written = all_bytes(&case.untrusted, case.version, minimum, written, room)?;
    case.output.put(&written)
}

/// Rule 13.5.
fn has_sealed_field(case: &Case) -> bool {
    !case.authenticated.is_empty() || !case.sealed.is_empty()
}

/// Rules 13.4 and 13.8.
fn sealed_field(nonce: &[u8], ciphertext: &[u8], room: usize) -> Result<Vec<u8>, Refusal> {
    let (nonce_end, ciphertext_end) = (rounded_up(nonce.len()), rounded_up(ciphertext.len()));
    let length = 8 + nonce_end + ciphertext_end;
    if length > room {
        return Err(16);
    }
    let mut bytes = vec![0x04, 0x04];
    bytes.extend(two_bytes(length));
    bytes.extend(two_bytes(nonce.len()));
    bytes.extend(two_bytes(ciphertext.len()));
    bytes.extend(nonce);
    bytes.resize(8 + nonce_end, 0);
    bytes.extend(ciphertext);
    bytes.resize(length, 0);
    Ok(bytes)
}

/// The fields of a list in writing order, each with the minimum of its place,
/// after what is written before them into the same room: rules 12.8 and 12.9.
fn all_bytes(
    fields: &[Field],
    version: Version,
    minimum: impl Fn(usize) -> usize,
    mut written: Vec<u8>,
    room: usize,
) -> Result<Vec<u8>, Refusal> {
    for (place, field) in fields.iter().enumerate() {
        written.extend(bytes_of(field, version, minimum(place))?);
        if written.len() > room {
            return Err(16);
        }
    }
    Ok(written)
}

/// The bytes of one field, or 18 or 15: rules 12.1, 12.2 and 12.7.
fn bytes_of(field: &Field, version: Version, minimum: usize) -> Result<Vec<u8>, Refusal> {
    let framed = |type_id, size, data| framed(type_id, size, data, version, minimum);
    match field {
        Field::Bytes(type_id, data) => framed(*type_id, data.len() as u64, data),
        Field::Placeholder(length) => framed(0x0304, (*length).into(), &[]),
        Field::Draft(text) if text.iter().any(|byte| *byte >= 128) => Err(18),
        Field::Draft(text) => framed(0xF5FF, text.len() as u64, text),
        Field::Padding(length) if *length < 4 => Err(18),
        Field::Padding(length) => framed(0xF501, length - 4, &[]),
        Field::Request(payload, offset) => request_bytes(*payload, *offset),
        Field::Response(data) => response_bytes(data),
        Field::Marker => Err(18),
    }
}

/// A field with so many bytes of data, all zeros after those that are given:
/// rules 12.3, 12.4 and 12.6.
fn framed(
    type_id: u16,
    size: u64,
    data: &[u8],
    version: Version,
    minimum: usize,
) -> Result<Vec<u8>, Refusal> {
    let longest = match version {
        Version::V4 => 65_528,
        Version::V5 => 65_531,
    };
    if size > longest {
        return Err(15);
    }
    let mut length = (size as usize + 4).max(minimum);
    if version == Version::V4 {
        length = rounded_up(length);
    }
    let mut bytes = two_bytes(type_id.into()).to_vec();
    bytes.extend(two_bytes(length));
    bytes.extend(data);
    bytes.resize(rounded_up(length), 0);
    Ok(bytes)
}
