//! The header of RFC 5905, for NTPv3 and NTPv4, and its time reading: section 23
//! of the rules.

use super::header::{number_at, reading_of_counts};
use super::{Output, Refusal, wrote};
use crate::format::{Parsed, Words};

/// Rules 23.1 to 23.3.
pub fn read(words: &mut Words) -> Parsed<String> {
    let bytes = words.bytes()?;
    Ok(read_bytes(&bytes))
}

fn read_bytes(bytes: &[u8]) -> String {
    if bytes.len() < 48 {
        return "1".to_string();
    }
    let (leap, version, mode) = (bytes[0] / 64, bytes[0] / 8 % 8, bytes[0] % 8);
    if version != 3 && version != 4 {
        return format!("11 {version}");
    }
    let (stratum, poll, precision) = (bytes[1], bytes[2], bytes[3] as i8);
    let (delay, dispersion) = (number_at(&bytes[4..8]), number_at(&bytes[8..12]));
    let reference_id = number_at(&bytes[12..16]);
    let (reference, origin) = (number_at(&bytes[16..24]), number_at(&bytes[24..32]));
    let (receive, transmit) = (number_at(&bytes[32..40]), number_at(&bytes[40..48]));
    format!(
        "0 {leap} {version} {mode} {stratum} {poll} {precision} {delay} {dispersion} \
         {reference_id} {reference} {origin} {receive} {transmit}"
    )
}

/// Rule 23.4.
pub fn write(words: &mut Words) -> Parsed<String> {
    let output = Output::of(words)?;
    let first = first_byte(words.number()?, words.number()?, words.number()?);
    let mut rest: Vec<u8> = vec![words.number()?, words.number()?];
    rest.push(words.precision()? as u8);
    for _ in 0..3 {
        rest.extend(words.number::<u32>()?.to_be_bytes());
    }
    for _ in 0..4 {
        rest.extend(words.number::<u64>()?.to_be_bytes());
    }
    let bytes = first.map(|first| [vec![first], rest].concat());
    Ok(wrote(bytes, output))
}

/// The byte of rule 23.1, for values in the ranges of rule 23.4.
fn first_byte(leap: u8, version: u8, mode: u8) -> Result<u8, Refusal> {
    if leap > 3 || (version != 3 && version != 4) || mode > 7 {
        return Err(18);
    }
    Ok(leap * 64 + version * 8 + mode)
}

/// Rule 23.5.
pub fn reading(words: &mut Words) -> Parsed<String> {
    reading_of_counts(words, 65_536.0)
}
