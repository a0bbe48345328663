//! The reader: sections 3, 8, 9, 10 and 11 of the rules.

use super::fields::{Frame, SEALED, Sealed, goes_on, kind_of, test_contents};
use super::{LONGEST, MOST_FIELDS, Refusal, Version, version};
use crate::format::{NotACase, Parsed, Words, hex, list, number};

/// What the host passes for a sealed field: rule 8.1.
struct Opening {
    verdict: u64,
    start: u64,
    length: u64,
}

struct Case {
    version: Version,
    header: u64,
    packet: Vec<u8>,
    results: Vec<Opening>,
    plain: Vec<u8>,
}

/// A field record, rule 11.1, and the field's message bytes, rule 11.4.
struct Record {
    kind: &'static str,
    type_id: u16,
    offset: usize,
    message: usize,
    taken: usize,
    trust: char,
    bytes: Vec<u8>,
}

impl Record {
    /// The record of the field that is at an offset, with which the region begins.
    fn new(kind: &'static str, frame: &Frame, offset: usize, trust: char, region: &[u8]) -> Self {
        Self {
            kind,
            type_id: frame.type_id,
            offset,
            message: frame.message,
            taken: frame.taken,
            trust,
            bytes: frame.message_of(region).to_vec(),
        }
    }
}

/// What the walk has found so far.
#[derive(Default)]
struct Found {
    outer: Vec<Record>,
    inner: Vec<Record>,
    /// How many sealed fields were reached.
    sealed: usize,
    /// Whether one of them was not opened.
    failed: bool,
    /// The number of the last opened one, if it was opened by a server cookie.
    cookie: Option<usize>,
    remainder: usize,
}

pub fn read(words: &mut Words) -> Parsed<String> {
    let case = Case {
        version: version(words)?,
        header: words.number()?,
        packet: words.bytes()?,
        results: results(words)?,
        plain: words.bytes()?,
    };
    let found = match walk(&case) {
        Ok(found) => found,
        // Rules 2.3 and 2.4.
        Err((number, offset)) => return Ok(format!("{number} {offset}")),
    };
    // Rules 9.3, 9.5, 10.1 and 10.3.
    let (number, cookie) = match (found.failed, found.cookie) {
        (true, _) => (5, "-".to_string()),
        (false, None) => (0, "-".to_string()),
        (false, Some(sealed)) => (0, sealed.to_string()),
    };
    let (outer, inner) = (entries(&found.outer), entries(&found.inner));
    let remainder = found.remainder;
    Ok(format!("{number} {outer} {inner} {remainder} {cookie}"))
}

fn results(words: &mut Words) -> Parsed<Vec<Opening>> {
    let mut results = Vec::new();
    for parts in words.list()? {
        let [verdict, start, length] = parts[..] else {
            return Err(NotACase);
        };
        results.push(Opening {
            verdict: number(verdict)?,
            start: number(start)?,
            length: number(length)?,
        });
    }
    Ok(results)
}

fn entries(records: &[Record]) -> String {
    let mut entries = Vec::new();
    for record in records {
        entries.push(format!(
            "{}:{}:{}:{}:{}:{}:{}",
            record.kind,
            record.type_id,
            record.offset,
            record.message,
            record.taken,
            record.trust,
            hex(&record.bytes)
        ));
    }
    list(&entries)
}

/// Walks over the outer fields in wire order; a refusal comes with the offset of
/// the field at fault. Rule 3.1.
fn walk(case: &Case) -> Result<Found, (Refusal, usize)> {
    if case.packet.len() > LONGEST {
        return Err((7, 0));
    }
    if case.header > case.packet.len() as u64 {
        return Err((6, 0));
    }
    let mut found = Found::default();
    let mut at = case.header as usize;
    while goes_on(case.version, case.packet.len() - at) {
        let here = |number| (number, at);
        let region = &case.packet[at..];
        let frame = Frame::at_start_of(region, case.version).map_err(here)?;
        if frame.type_id == SEALED {
            take_sealed(case, &mut found, &frame, region, at).map_err(here)?;
        } else {
            // Rules 3.2 and 9.2.
            let kind = kind_of(case.version, frame.type_id);
            test_contents(kind, frame.message_of(region)).map_err(here)?;
            let record = Record::new(kind, &frame, at, 'u', region);
            add(&mut found.outer, record).map_err(here)?;
        }
        at += frame.taken;
    }
    found.remainder = case.packet.len() - at;
    Ok(found)
}

/// Adds a record to a table, if it has room: rules 1.4 and 1.5.
fn add(records: &mut Vec<Record>, record: Record) -> Result<(), Refusal> {
    if records.len() == MOST_FIELDS {
        return Err(8);
    }
    records.push(record);
    Ok(())
}

/// A sealed field whose frame is sound: rule 3.3 from its second test on.
fn take_sealed(
    case: &Case,
    found: &mut Found,
    frame: &Frame,
    region: &[u8],
    at: usize,
) -> Result<(), Refusal> {
    Sealed::of(frame.message_of(region))?;
    // Rule 8.2.
    let number = found.sealed;
    let result = case.results.get(number).ok_or(9_u16)?;
    found.sealed += 1;
    match result.verdict {
        // Rules 8.7, 9.3 and 11.3.
        0 | 1 => {
            let kind = "InvalidNtsEncryptedField";
            add(&mut found.outer, Record::new(kind, frame, at, 'u', region))?;
            found.failed = true;
        }
        // Rules 9.4 and 10.1.
        2 | 3 => {
            take_inner(case, found, result)?;
            for record in &mut found.outer {
                record.trust = 'a';
            }
            found.cookie = (result.verdict == 3).then_some(number);
        }
        // Rule 8.4.
        _ => return Err(10),
    }
    Ok(())
}

/// The fields of an opened plaintext: rules 8.5, 3.3, 4.9, 6.4 and 11.2.
fn take_inner(case: &Case, found: &mut Found, result: &Opening) -> Result<(), Refusal> {
    let end = u128::from(result.start) + u128::from(result.length);
    if end > case.plain.len() as u128 || result.length > LONGEST as u64 {
        return Err(10);
    }
    let (mut at, end) = (result.start as usize, end as usize);
    while at < end {
        let region = &case.plain[at..end];
        let frame = Frame::at_start_of(region, case.version)?;
        if frame.type_id == SEALED {
            return Err(3);
        }
        let kind = kind_of(case.version, frame.type_id);
        test_contents(kind, frame.message_of(region))?;
        add(&mut found.inner, Record::new(kind, &frame, at, 'e', region))?;
        at += frame.taken;
    }
    Ok(())
}
