//! Section 15 of the rules.

use super::{Output, told, wrote};
use crate::format::{Parsed, Words, hex};

/// Rule 15.1, as request (i) amends it.
pub fn read(words: &mut Words) -> Parsed<String> {
    let bytes = words.bytes()?;
    if !matches!(bytes.len(), 4 | 20 | 24) {
        return Ok(told(Err(1)));
    }
    let mut keyid = 0;
    for byte in &bytes[..4] {
        keyid = keyid * 256 + u32::from(*byte);
    }
    Ok(told(Ok(format!("{keyid} {}", hex(&bytes[4..])))))
}

/// Rule 15.2, as request (i) amends it: 18 before 16.
pub fn write(words: &mut Words) -> Parsed<String> {
    let keyid: u32 = words.number()?;
    let body = words.bytes()?;
    let output = Output::of(words)?;
    if !matches!(body.len(), 0 | 16 | 20) {
        return Ok(wrote(Err(18), output));
    }
    let mut written = keyid.to_be_bytes().to_vec();
    written.extend(body);
    Ok(wrote(Ok(written), output))
}
