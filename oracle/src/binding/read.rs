//! Reading through the binding: step by step, in one call, and into tables that are used again. All have to tell the
//! same, and the closure of the one call has to see what ntp-proto shows a key chooser.

use crate::answers::{Answer, version};
use crate::format::{self, NotACase, Parsed, Words, hex, list};
use crate::packet::answer::domain::MOST_FIELDS;
use crate::{contexts, raw};
use lobzhinar::{
    Context, Encrypted, ExtensionField, ExtensionFieldData, ExtensionHeaderVersion, Field,
    NotItsTurn, Opening, Packet, ReadError, Results, SealTable, Sealed, Survey, Tables, Trust,
    Workspace, deserialize, survey,
};

/// What the host passes for a sealed field.
#[derive(Clone, Copy)]
pub struct Result {
    pub verdict: u64,
    pub start: u64,
    pub len: u64,
}

/// A case `read`.
pub struct Case {
    pub version: ExtensionHeaderVersion,
    pub header_size: usize,
    pub packet: Vec<u8>,
    pub results: Vec<Result>,
    pub plaintexts: Vec<u8>,
}

impl Case {
    fn of(words: &mut Words) -> Parsed<Self> {
        let version = version(words)?;
        let (header_size, packet) = (words.number::<u64>()? as usize, words.bytes()?);
        let result = |parts: Vec<&str>| match parts[..] {
            [verdict, start, len] => Ok(Result {
                verdict: format::number(verdict)?,
                start: format::number(start)?,
                len: format::number(len)?,
            }),
            _ => Err(NotACase),
        };
        let results: Parsed<Vec<Result>> = words.list()?.into_iter().map(result).collect();
        let case = Self {
            version,
            header_size,
            packet,
            results: results?,
            plaintexts: words.bytes()?,
        };
        words.end()?;
        Ok(case)
    }

    fn packet(&self) -> Packet<'_> {
        Packet::with_header(self.version, self.header_size, &self.packet)
    }

    /// What a host says of the sealed fields of a survey, if it can be said through the binding: a verdict that there is
    /// for each, and plaintexts one after the other. Results past the last sealed field are not read (rule 8.8), and
    /// neither are places of fields that were not opened.
    fn openings(&self, survey: &Survey) -> Option<Vec<Opening>> {
        let mut end = 0;
        let opening = |result: &Result| {
            let plaintext_len = result.len as usize;
            let opening = match result.verdict {
                0 => return Some(Opening::NoKey),
                1 => return Some(Opening::Failed),
                2 => Opening::Opened { plaintext_len },
                3 => Opening::OpenedByCookie { plaintext_len },
                _ => return None,
            };
            if result.start != end {
                return None;
            }
            // The binding goes on after a plaintext that has room.
            let next = end.checked_add(result.len);
            if let Some(next) = next.filter(|next| *next <= self.plaintexts.len() as u64) {
                end = next;
            }
            Some(opening)
        };
        // A survey lists no more sealed fields than its table holds. A result for a further one can't be given.
        let listed = survey.seal_count();
        if listed == MOST_FIELDS && self.results.len() > listed && survey.fault().is_some() {
            return None;
        }
        let results = &self.results[..self.results.len().min(listed)];
        results.iter().map(opening).collect()
    }
}

/// Reads packets one after the other.
#[derive(Default)]
pub struct Reading {
    workspace: Workspace,
    used: Tables,
}

impl Reading {
    pub fn read(&mut self, words: &mut Words) -> Parsed<Answer> {
        let case = Case::of(words)?;
        let mut seals = SealTable::new();
        let survey = survey(case.packet(), &mut seals);
        let Some(openings) = case.openings(&survey) else {
            return Ok(Answer::raw(raw::read(&case)));
        };
        let mut plaintexts = case.plaintexts.clone();
        let mut tables = Tables::new();
        let results = results(&survey, &mut plaintexts, &mut tables, &openings);
        let answer = told(results.deserialize());
        let differs = |way: &str, other: &str| Answer::public(format!("{way}: {other}"));

        let mut plaintexts = case.plaintexts.clone();
        let results = self::results(&survey, &mut plaintexts, &mut self.used, &openings);
        let again = told(results.deserialize_into_used_tables());
        if again != answer {
            return Ok(differs("into used tables", &again));
        }
        // With fewer results than sealed fields there is nothing to say in a closure.
        if openings.len() == survey.seal_count() {
            let at_once = self.at_once(&case, &openings);
            if at_once != answer {
                return Ok(differs("in one call", &at_once));
            }
        }
        Ok(Answer::public(answer))
    }

    /// The answer of the one call.
    fn at_once(&mut self, case: &Case, openings: &[Opening]) -> String {
        let mut plaintexts = case.plaintexts.clone();
        let mut seen = Vec::new();
        let open = |sealed: Sealed, context: Context, _: &mut [u8]| {
            seen.push(contexts::ours(context));
            openings[sealed.index()]
        };
        let read = deserialize(case.packet(), &mut self.workspace, &mut plaintexts, open);
        let answer = told(read);
        match contexts::theirs(case, &answer) {
            Some(theirs) if theirs != seen => format!("contexts {seen:?}, not {theirs:?}"),
            _ => answer,
        }
    }
}

/// All results, given in turn.
fn results<'packet, 'plain, 'tables>(
    survey: &Survey<'packet, '_>,
    plaintexts: &'plain mut [u8],
    tables: &'tables mut Tables,
    openings: &[Opening],
) -> Results<'packet, 'plain, 'tables> {
    let mut results = Results::new(survey, plaintexts, tables);
    for (sealed, opening) in survey.iter().zip(openings) {
        let added = match *opening {
            Opening::NoKey => results.no_key(&sealed),
            Opening::Failed => results.failed(&sealed),
            Opening::Opened { plaintext_len } => results.opened(&sealed, plaintext_len),
            Opening::OpenedByCookie { plaintext_len } => {
                results.opened_by_cookie(&sealed, plaintext_len)
            }
        };
        assert_eq!(added, Ok(()));
        assert_eq!(results.failed(&sealed), Err(NotItsTurn));
    }
    results
}

fn told(read: std::result::Result<ExtensionFieldData, ReadError>) -> String {
    match read {
        Ok(data) => {
            let outer = [
                outer(data.authenticated(), 'a'),
                outer(data.untrusted(), 'u'),
            ]
            .concat();
            let cookie = data.cookie().map(|seal| seal.to_string());
            let cookie = cookie.unwrap_or("-".to_string());
            let rest = data.remaining_bytes().len();
            format!(
                "0 {} {} {rest} {cookie}",
                list(&outer),
                inner(data.encrypted())
            )
        }
        Err(ReadError::DecryptError(data)) => {
            let outer = [
                outer(data.authenticated(), 'a'),
                outer(data.untrusted(), 'u'),
            ]
            .concat();
            let rest = data.remaining_bytes().len();
            format!("5 {} {} {rest} -", list(&outer), inner(data.encrypted()))
        }
        Err(ReadError::Refused(fault)) => {
            let offset = fault.field_offset.bytes_from_packet_start();
            format!("{} {offset}", fault.refusal.number())
        }
    }
}

/// Fields of the packet, which have a place there.
trait Outer {
    fn offset(&self) -> usize;
}

impl Outer for Field<'_, lobzhinar::Authenticated> {
    fn offset(&self) -> usize {
        self.packet_offset().bytes_from_packet_start()
    }
}

impl Outer for Field<'_, lobzhinar::Untrusted> {
    fn offset(&self) -> usize {
        self.packet_offset().bytes_from_packet_start()
    }
}

fn outer<'a, T: Trust>(
    fields: impl ExactSizeIterator<Item = Field<'a, T>>,
    trust: char,
) -> Vec<String>
where
    Field<'a, T>: Outer,
{
    let count = fields.len();
    let entries: Vec<String> = fields
        .map(|found| entry(&found, found.offset(), trust))
        .collect();
    assert_eq!(entries.len(), count);
    entries
}

fn inner<'a>(fields: impl Iterator<Item = Field<'a, Encrypted>>) -> String {
    let entries: Vec<String> = fields
        .map(|found| {
            let offset = found.plaintexts_offset().bytes_from_plaintexts_start();
            entry(&found, offset, 'e')
        })
        .collect();
    list(&entries)
}

fn entry<T: Trust>(found: &Field<T>, offset: usize, trust: char) -> String {
    let (kind, message) = (name(&found.field()), found.message_len());
    let (type_id, taken) = (found.type_id(), found.wire_length());
    let bytes = hex(&message_bytes(found));
    format!("{kind}:{type_id}:{offset}:{message}:{taken}:{trust}:{bytes}")
}

/// The message of a field as what it says has it. A placeholder says a length, a request two numbers, and a marker
/// nothing: of the first there are zeros, and of the others the message itself has to serve.
fn message_bytes<T: Trust>(found: &Field<T>) -> Vec<u8> {
    match found.field() {
        ExtensionField::UniqueIdentifier(data)
        | ExtensionField::NtsCookie(data)
        | ExtensionField::DraftIdentification(data)
        | ExtensionField::Unknown { data, .. } => data.to_vec(),
        ExtensionField::ReferenceIdResponse(response) => response.bytes().to_vec(),
        ExtensionField::NtsCookiePlaceholder { cookie_length } => {
            vec![0; usize::from(cookie_length)]
        }
        ExtensionField::ReferenceIdRequest(_) | ExtensionField::InvalidNtsEncryptedField => {
            found.message().to_vec()
        }
    }
}

pub fn name(field: &ExtensionField) -> &'static str {
    match field {
        ExtensionField::UniqueIdentifier(_) => "UniqueIdentifier",
        ExtensionField::NtsCookie(_) => "NtsCookie",
        ExtensionField::NtsCookiePlaceholder { .. } => "NtsCookiePlaceholder",
        ExtensionField::InvalidNtsEncryptedField => "InvalidNtsEncryptedField",
        ExtensionField::DraftIdentification(_) => "DraftIdentification",
        ExtensionField::ReferenceIdRequest(_) => "ReferenceIdRequest",
        ExtensionField::ReferenceIdResponse(_) => "ReferenceIdResponse",
        ExtensionField::Unknown { .. } => "Unknown",
    }
}
