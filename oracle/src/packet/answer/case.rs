//! A packet to read, and what is lent for its sealed fields.

use super::script::LentResult;
use crate::format::{self, NotACase, Parsed, Words};
use crate::packet::extension_fields::ExtensionHeaderVersion;

/// The words of a case `read`.
pub struct Case {
    pub version: ExtensionHeaderVersion,
    pub header: usize,
    pub packet: Vec<u8>,
    pub results: Vec<LentResult>,
    pub plain: Vec<u8>,
}

impl Case {
    pub fn read(words: &mut Words) -> Parsed<Self> {
        Ok(Self {
            version: words.version()?,
            header: words.number()?,
            packet: words.bytes()?,
            results: results(words)?,
            plain: words.bytes()?,
        })
    }
}

fn results(words: &mut Words) -> Parsed<Vec<LentResult>> {
    let result = |parts: Vec<&str>| match parts[..] {
        [verdict, start, length] => Ok(LentResult {
            verdict: format::number(verdict)?,
            start: format::number(start)?,
            length: format::number(length)?,
        }),
        _ => Err(NotACase),
    };
    words.list()?.into_iter().map(result).collect()
}
