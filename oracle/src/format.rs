//! The words that a line is made of: docs/REPLAY.md, "Words".

use crate::packet::extension_fields::ExtensionHeaderVersion;

/// A longer line, not counting its line feed, is no case.
const LONGEST_LINE: usize = 1_048_576;

/// How many entries the lists of a line have together; of `judge`, each list.
pub const MOST_ENTRIES: usize = 16_384;

/// The line is no case, which is answered by a question mark.
#[derive(Debug)]
pub struct NotACase;

pub type Parsed<T> = Result<T, NotACase>;

/// The words of a line that have not been taken yet.
pub struct Words<'a>(std::str::Split<'a, char>);

impl<'a> Words<'a> {
    pub fn of(line: &'a [u8]) -> Parsed<Self> {
        if line.len() > LONGEST_LINE {
            return Err(NotACase);
        }
        let line = std::str::from_utf8(line).map_err(|_| NotACase)?;
        Ok(Self(line.split(' ')))
    }

    pub fn word(&mut self) -> Parsed<&'a str> {
        self.0.next().ok_or(NotACase)
    }

    pub fn number<T: TryFrom<u64>>(&mut self) -> Parsed<T> {
        number(self.word()?)
    }

    pub fn bytes(&mut self) -> Parsed<Vec<u8>> {
        bytes(self.word()?)
    }

    pub fn flag(&mut self) -> Parsed<bool> {
        match self.word()? {
            "0" => Ok(false),
            "1" => Ok(true),
            _ => Err(NotACase),
        }
    }

    pub fn version(&mut self) -> Parsed<ExtensionHeaderVersion> {
        match self.word()? {
            "4" => Ok(ExtensionHeaderVersion::V4),
            "5" => Ok(ExtensionHeaderVersion::V5),
            _ => Err(NotACase),
        }
    }

    /// The one number that may have a `-` in front. Zero has none: each number is
    /// written in one way only.
    pub fn precision(&mut self) -> Parsed<i8> {
        let word = self.word()?;
        let precision = match word.strip_prefix('-') {
            Some("0") => return Err(NotACase),
            Some(size) => -i16::from(number::<u8>(size)?),
            None => i16::from(number::<u8>(word)?),
        };
        precision.try_into().map_err(|_| NotACase)
    }

    /// The entries of a list, each as its parts. No list has more than
    /// [`MOST_ENTRIES`].
    pub fn list(&mut self) -> Parsed<Vec<Vec<&'a str>>> {
        let entries: Vec<Vec<&str>> = match self.word()? {
            "-" => Vec::new(),
            word => word.split(',').map(|e| e.split(':').collect()).collect(),
        };
        if entries.len() > MOST_ENTRIES {
            return Err(NotACase);
        }
        Ok(entries)
    }

    /// The numbers of a list.
    pub fn numbers(&mut self) -> Parsed<Vec<u64>> {
        let one = |parts: Vec<&str>| match parts[..] {
            [part] => number(part),
            _ => Err(NotACase),
        };
        self.list()?.into_iter().map(one).collect()
    }

    /// Nothing may be left over.
    pub fn end(&mut self) -> Parsed<()> {
        match self.0.next() {
            None => Ok(()),
            Some(_) => Err(NotACase),
        }
    }
}

/// A decimal number that fits the type of its place.
pub fn number<T: TryFrom<u64>>(word: &str) -> Parsed<T> {
    let plain = word.bytes().all(|b| b.is_ascii_digit()) && (word == "0" || !word.starts_with('0'));
    if !plain {
        return Err(NotACase);
    }
    let number: u64 = word.parse().map_err(|_| NotACase)?;
    number.try_into().map_err(|_| NotACase)
}

/// Bytes written as pairs of hex digits.
pub fn bytes(word: &str) -> Parsed<Vec<u8>> {
    if word == "-" {
        return Ok(Vec::new());
    }
    let digits = word.as_bytes();
    if digits.is_empty() || !digits.len().is_multiple_of(2) {
        return Err(NotACase);
    }
    digits
        .chunks_exact(2)
        .map(|pair| Ok(digit(pair[0])? << 4 | digit(pair[1])?))
        .collect()
}

fn digit(letter: u8) -> Parsed<u8> {
    match letter {
        b'0'..=b'9' => Ok(letter - b'0'),
        b'a'..=b'f' => Ok(letter - b'a' + 10),
        _ => Err(NotACase),
    }
}

/// The word for some bytes.
pub fn hex(bytes: &[u8]) -> String {
    const DIGITS: &[u8; 16] = b"0123456789abcdef";
    if bytes.is_empty() {
        return "-".to_string();
    }
    let digits = bytes.iter().flat_map(|b| [b >> 4, b & 15]);
    digits.map(|d| char::from(DIGITS[usize::from(d)])).collect()
}

/// The word for a list.
pub fn list(entries: &[String]) -> String {
    if entries.is_empty() {
        "-".to_string()
    } else {
        entries.join(",")
    }
}
