//! The writer of a packet's extension fields.

use super::domain::{LONGEST, Outside, WRONG_V4_DATA, inside};
use super::line::Answer;
use super::output::{Done, Lent, Output};
use super::reference_ids::{request_inside, response_inside};
use super::script::Sealer;
use crate::format::{self, MOST_ENTRIES, NotACase, Parsed, Words, hex};
use crate::packet::extension_fields::{ExtensionField, ExtensionFieldData, ExtensionHeaderVersion};
use crate::packet::v5::extension_fields::ReferenceIdResponse;
use crate::packet::v5::extension_fields::probe::make_request;

/// A list of fields to write, or why one of them is outside the domain.
type Fields = Result<Vec<ExtensionField<'static>>, Outside>;

/// The words of a case.
struct Case {
    version: ExtensionHeaderVersion,
    has_cipher: bool,
    nonce: Vec<u8>,
    ciphertext: Vec<u8>,
    output: Output,
    authenticated: Fields,
    encrypted: Fields,
    untrusted: Fields,
}

pub fn write(words: &mut Words) -> Parsed<Answer> {
    Ok(write_fields(case(words)?).into())
}

fn case(words: &mut Words) -> Parsed<Case> {
    let version = words.version()?;
    let mut left = MOST_ENTRIES;
    let case = Case {
        version,
        has_cipher: words.flag()?,
        nonce: words.bytes()?,
        ciphertext: words.bytes()?,
        output: Output::read(words)?,
        authenticated: fields(words, version, &mut left)?,
        encrypted: fields(words, version, &mut left)?,
        untrusted: fields(words, version, &mut left)?,
    };
    words.end()?;
    Ok(case)
}

/// A list of fields; `left` is how many the case may still have.
fn fields(words: &mut Words, version: ExtensionHeaderVersion, left: &mut usize) -> Parsed<Fields> {
    let list = words.list()?;
    *left = left.checked_sub(list.len()).ok_or(NotACase)?;
    let fields: Vec<_> = list
        .iter()
        .map(|parts| field(parts))
        .collect::<Parsed<_>>()?;
    let tested = |field: Result<_, _>| field.and_then(|field| tested(field, version));
    Ok(fields.into_iter().map(tested).collect())
}

/// One field. The crate holds a draft identification as text, so that one of
/// other bytes cannot be made at all.
fn field(parts: &[&str]) -> Parsed<Result<ExtensionField<'static>, Outside>> {
    Ok(Ok(match *parts {
        ["unknown", type_id, data] => ExtensionField::Unknown {
            type_id: format::number(type_id)?,
            data: format::bytes(data)?.into(),
        },
        ["uid", data] => ExtensionField::UniqueIdentifier(format::bytes(data)?.into()),
        ["cookie", data] => ExtensionField::NtsCookie(format::bytes(data)?.into()),
        ["placeholder", length] => ExtensionField::NtsCookiePlaceholder {
            cookie_length: format::number(length)?,
        },
        ["draft", text] => match String::from_utf8(format::bytes(text)?) {
            Ok(text) if text.is_ascii() => ExtensionField::DraftIdentification(text.into()),
            _ => return Ok(Err(Outside::DraftNotAscii)),
        },
        ["padding", length] => ExtensionField::Padding(format::number(length)?),
        ["request", payload, offset] => {
            make_request(format::number(payload)?, format::number(offset)?).into()
        }
        ["response", data] => {
            let data = format::bytes(data)?;
            ReferenceIdResponse::decode(&data).into_owned().into()
        }
        ["marker"] => ExtensionField::InvalidNtsEncryptedField,
        _ => return Err(NotACase),
    }))
}

/// The field, if it is none of those that the Rust writes in another way.
fn tested(
    field: ExtensionField<'static>,
    version: ExtensionHeaderVersion,
) -> Result<ExtensionField<'static>, Outside> {
    match &field {
        ExtensionField::Unknown { data, .. }
        | ExtensionField::UniqueIdentifier(data)
        | ExtensionField::NtsCookie(data) => data_inside(data.len(), version)?,
        ExtensionField::NtsCookiePlaceholder { cookie_length } => {
            data_inside(usize::from(*cookie_length), version)?;
        }
        ExtensionField::DraftIdentification(text) => data_inside(text.len(), version)?,
        ExtensionField::Padding(length) => {
            // For a length below 4 the Rust's difference wraps, and is then too
            // long for it to write.
            data_inside(length.wrapping_sub(4), version)?;
        }
        ExtensionField::ReferenceIdRequest(request) => request_inside(*request)?,
        ExtensionField::ReferenceIdResponse(response) => response_inside(response)?,
        ExtensionField::InvalidNtsEncryptedField => {}
    }
    Ok(field)
}

/// In V4 there are lengths for which the Rust writes another one. Its own
/// refusal of longer data, in both versions, is an answer.
fn data_inside(length: usize, version: ExtensionHeaderVersion) -> Result<(), Outside> {
    let wrong = version == ExtensionHeaderVersion::V4 && WRONG_V4_DATA.contains(&length);
    inside(!wrong, Outside::FieldTooLong)
}

fn write_fields(case: Case) -> Result<Answer, Outside> {
    case.output.inside_limits()?;
    let fields = ExtensionFieldData {
        authenticated: case.authenticated?,
        encrypted: case.encrypted?,
        untrusted: case.untrusted?,
    };
    let nothing = !has_seal(&fields) && fields.untrusted.is_empty();
    inside(
        !(nothing && case.output.starts_past_end()),
        Outside::StartPastEnd,
    )?;
    let plaintext = plaintext(&fields, case.version);
    if let Some(plaintext) = &plaintext
        && case.has_cipher
    {
        let shorter = case.ciphertext.len() < plaintext.len();
        inside(!shorter, Outside::CiphertextShorter)?;
    }
    let between = between_stages(&fields, case.has_cipher, case.output.clone(), case.version);
    let sealer = case
        .has_cipher
        .then(|| Sealer::new(case.nonce, case.ciphertext));
    let done = serialize(&fields, &sealer, case.output, case.version);
    Ok(answer(
        done.map_err(|lent| between.unwrap_or(lent)),
        plaintext,
        &sealer,
    ))
}

/// What the port's first stage leaves in the output where it writes: the crate
/// has one stage, and so a refusal by the port's second comes after the bytes
/// of the first. They are the authenticated fields, by the crate's own code.
fn between_stages(
    fields: &ExtensionFieldData,
    has_cipher: bool,
    output: Output,
    version: ExtensionHeaderVersion,
) -> Option<Lent> {
    if output.starts_past_end() || (has_seal(fields) && !has_cipher) {
        return None;
    }
    let sealed = has_seal(fields).then(|| plaintext(fields, version));
    if sealed.is_some_and(|sealed| sealed.is_none_or(|bytes| bytes.len() > LONGEST)) {
        return None;
    }
    let first = output.write(|cursor| {
        let mut each = fields.authenticated.iter();
        each.try_for_each(|field| field.serialize(&mut *cursor, 16, version))
    });
    first.ok().map(|done| Lent(done.bytes))
}

/// Whether the crate writes a sealed field.
fn has_seal(fields: &ExtensionFieldData) -> bool {
    !fields.authenticated.is_empty() || !fields.encrypted.is_empty()
}

/// What the crate would seal if there were room for all of it: the Rust writes
/// the plaintext where the sealed field will stand, and so needs room for a
/// plaintext that is longer than its ciphertext, which the port does not.
fn plaintext(fields: &ExtensionFieldData, version: ExtensionHeaderVersion) -> Option<Vec<u8>> {
    let mut plaintext = Vec::new();
    if !has_seal(fields) {
        return None;
    }
    for field in &fields.encrypted {
        field.serialize(&mut plaintext, 0, version).ok()?;
    }
    Some(plaintext)
}

fn serialize(
    fields: &ExtensionFieldData,
    sealer: &Option<Sealer>,
    output: Output,
    version: ExtensionHeaderVersion,
) -> Result<Done, Lent> {
    output.write(|cursor| fields.serialize(cursor, sealer, version))
}

/// The answer `0 COUNT PLAINTEXT OUT`, or `refused OUT`.
fn answer(done: Result<Done, Lent>, plaintext: Option<Vec<u8>>, sealer: &Option<Sealer>) -> Answer {
    let done = match done {
        Ok(done) => done,
        Err(Lent(output)) => return Answer::Refused(hex(&output)),
    };
    let sealed = sealer.as_ref().map(Sealer::plaintext).unwrap_or_default();
    if sealed != plaintext.unwrap_or_default() {
        return Answer::Panic("panic plaintext");
    }
    let (sealed, output) = (hex(&sealed), hex(&done.bytes));
    Answer::accepted(format_args!("{} {sealed} {output}", done.count))
}

/// What the crate writes for a case, for those who choose the case's sizes.
pub struct Measure {
    pub plaintext: usize,
    /// All bytes written, less nonce and ciphertext.
    pub frame: usize,
    pub has_seal: bool,
}

/// Measures the fields of a case, if the crate writes them at all. The line's
/// nonce, ciphertext and output do not count.
pub fn measure(line: &str) -> Option<Measure> {
    let mut words = Words::of(line.as_bytes()).ok()?;
    words.word().ok()?;
    let case = case(&mut words).ok()?;
    let fields = ExtensionFieldData {
        authenticated: case.authenticated.ok()?,
        encrypted: case.encrypted.ok()?,
        untrusted: case.untrusted.ok()?,
    };
    let sealer = Some(Sealer::new(Vec::new(), Vec::new()));
    let output = Output::blank(4 * super::domain::LONGEST);
    let done = serialize(&fields, &sealer, output, case.version).ok()?;
    Some(Measure {
        plaintext: sealer.map_or(0, |sealer| sealer.plaintext().len()),
        frame: done.count as usize,
        has_seal: has_seal(&fields),
    })
}
