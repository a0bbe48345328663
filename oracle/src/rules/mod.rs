//! A model of the rules: the answer to every case, worked out from docs/RULES.md
//! and docs/REPLAY.md alone.
//!
//! It is a second program for the same law, to hold answers to where ntp-proto
//! has none. It calls neither ntp-proto's code nor the driver's. It is meant to
//! be read beside the rules: it takes its time, copies what it likes, and names
//! the rule at each step.
//! Only the words of a line are taken apart by `format`, as they are elsewhere.

use crate::format::{NotACase, Parsed, Words, hex};

mod fields;
mod header;
mod header34;
mod judge;
mod mac;
mod read;
mod reference_ids;
mod survey;
#[cfg(test)]
mod tests;
mod write;

/// A number of rule 2.1.
type Refusal = u16;

/// The most bytes of a packet, of a plaintext and of an output: rules 1.1, 8.5
/// and 1.7.
const LONGEST: usize = 65_535;

/// The most outer items and the most inner fields of a packet, and the most
/// entries of a survey: rules 1.4, 1.5 and 7.5.
const MOST_FIELDS: usize = 128;

#[derive(Copy, Clone, PartialEq, Eq)]
enum Version {
    V4,
    V5,
}

/// The answer to a line, which comes without its line feed.
pub fn answer(line: &[u8]) -> String {
    if line.is_empty() {
        return String::new();
    }
    answer_to_case(line).unwrap_or_else(|NotACase| "?".to_string())
}

fn answer_to_case(line: &[u8]) -> Parsed<String> {
    let mut words = Words::of(line)?;
    let answer = match words.word()? {
        "round" => fields::round(&mut words),
        "kind" => fields::kind(&mut words),
        "frame" => fields::frame(&mut words),
        "mac-read" => mac::read(&mut words),
        "mac-write" => mac::write(&mut words),
        "request-new" => reference_ids::request_new(&mut words),
        "request-read" => reference_ids::request_read(&mut words),
        "request-write" => reference_ids::request_write(&mut words),
        "response-new" => reference_ids::response_new(&mut words),
        "response-cut" => reference_ids::response_cut(&mut words),
        "response-read" => reference_ids::response_read(&mut words),
        "response-write" => reference_ids::response_write(&mut words),
        "read" => read::read(&mut words),
        "survey" => survey::survey(&mut words),
        "judge" => judge::judge(&mut words),
        "write" => write::write(&mut words),
        "header5-read" => header::read(&mut words),
        "header5-write" => header::write(&mut words),
        "reading" => header::reading(&mut words),
        "header34-read" => header34::read(&mut words),
        "header34-write" => header34::write(&mut words),
        "reading34" => header34::reading(&mut words),
        _ => Err(NotACase),
    }?;
    words.end()?;
    Ok(answer)
}

fn version(words: &mut Words) -> Parsed<Version> {
    match words.word()? {
        "4" => Ok(Version::V4),
        "5" => Ok(Version::V5),
        _ => Err(NotACase),
    }
}

/// `0 WORDS`, or the number alone (rule 2.6).
fn told(result: Result<String, Refusal>) -> String {
    match result {
        Ok(words) => format!("0 {words}"),
        Err(number) => number.to_string(),
    }
}

/// The smallest multiple of four that is not below a length.
fn rounded_up(length: usize) -> usize {
    length.div_ceil(4) * 4
}

/// The number in two bytes, the first being the higher one.
fn number_in(bytes: &[u8]) -> usize {
    usize::from(bytes[0]) * 256 + usize::from(bytes[1])
}

/// The two bytes of a number below 65,536.
fn two_bytes(number: usize) -> [u8; 2] {
    [(number / 256) as u8, (number % 256) as u8]
}

/// An output, and where in it the next write starts.
struct Output {
    start: u64,
    bytes: Vec<u8>,
}

impl Output {
    /// The words AT and OUT.
    fn of(words: &mut Words) -> Parsed<Self> {
        let start = words.number()?;
        let bytes = words.bytes()?;
        Ok(Self { start, bytes })
    }

    /// How many bytes there are from the start on, or 16 for a start past the
    /// end: rules 1.7 and 13.7.
    fn room(&self) -> Result<usize, Refusal> {
        let end = self.bytes.len().min(LONGEST) as u64;
        if self.start > end {
            return Err(16);
        }
        Ok((end - self.start) as usize)
    }

    /// Writes all of the bytes or none, and moves the start behind them: rules
    /// 2.7, 2.8 and 12.8.
    fn put(&mut self, written: &[u8]) -> Result<(), Refusal> {
        if written.len() > self.room()? {
            return Err(16);
        }
        let start = self.start as usize;
        self.bytes[start..start + written.len()].copy_from_slice(written);
        self.start += written.len() as u64;
        Ok(())
    }
}

/// The answer of a writer of one thing: `0 COUNT OUT` or `N OUT`.
fn wrote(written: Result<Vec<u8>, Refusal>, mut output: Output) -> String {
    let done = written.and_then(|written| output.put(&written).map(|()| written.len()));
    let bytes = hex(&output.bytes);
    match done {
        Ok(count) => format!("0 {count} {bytes}"),
        Err(number) => format!("{number} {bytes}"),
    }
}
