//! The NTPv5 header and the time reading: sections 16 and 17 of the rules.

use super::{Output, wrote};
use crate::format::{NotACase, Parsed, Words};

/// Rules 16.1 to 16.5.
pub fn read(words: &mut Words) -> Parsed<String> {
    let bytes = words.bytes()?;
    Ok(read_bytes(&bytes))
}

fn read_bytes(bytes: &[u8]) -> String {
    if bytes.len() < 48 {
        return "1".to_string();
    }
    let (leap, version, mode) = (bytes[0] / 64, bytes[0] / 8 % 8, bytes[0] % 8);
    if version != 5 {
        return format!("11 {version}");
    }
    if mode != 3 && mode != 4 {
        return "12".to_string();
    }
    let timescale = bytes[12];
    if timescale > 3 {
        return "13".to_string();
    }
    if bytes[14] != 0 || bytes[15] > 7 {
        return "14".to_string();
    }
    let flags = bytes[15];
    let (synchronized, interleaved, authnak) = (flags % 2, flags / 2 % 2, flags / 4);
    let leap = match (synchronized, leap) {
        (0, _) => "unsynchronized",
        (_, 0) => "0",
        (_, 1) => "1",
        (_, 2) => "2",
        _ => "unknown",
    };
    let (stratum, poll, precision) = (bytes[1], bytes[2], bytes[3] as i8);
    let (delay, dispersion) = (number_at(&bytes[4..8]), number_at(&bytes[8..12]));
    let era = bytes[13];
    let (server, client) = (number_at(&bytes[16..24]), number_at(&bytes[24..32]));
    let (receive, transmit) = (number_at(&bytes[32..40]), number_at(&bytes[40..48]));
    format!(
        "0 {leap} {mode} {stratum} {poll} {precision} {delay} {dispersion} {timescale} {era} \
         {synchronized} {interleaved} {authnak} {server} {client} {receive} {transmit}"
    )
}

/// Rules 16.3 and 23.1.
pub fn number_at(bytes: &[u8]) -> u64 {
    let mut number = 0;
    for byte in bytes {
        number = number * 256 + u64::from(*byte);
    }
    number
}

/// Rules 16.6 and 16.7.
pub fn write(words: &mut Words) -> Parsed<String> {
    let output = Output::of(words)?;
    let leap = match words.word()? {
        "0" => 0,
        "1" => 1,
        "2" => 2,
        "unknown" | "unsynchronized" => 3,
        _ => return Err(NotACase),
    };
    let mode = match words.word()? {
        "3" => 3,
        "4" => 4,
        _ => return Err(NotACase),
    };
    let mut bytes: Vec<u8> = vec![leap * 64 + 5 * 8 + mode];
    bytes.push(words.number()?);
    bytes.push(words.number()?);
    bytes.push(words.precision()? as u8);
    bytes.extend(words.number::<u32>()?.to_be_bytes());
    bytes.extend(words.number::<u32>()?.to_be_bytes());
    bytes.push(match words.word()? {
        "0" => 0,
        "1" => 1,
        "2" => 2,
        "3" => 3,
        _ => return Err(NotACase),
    });
    bytes.push(words.number()?);
    bytes.push(0);
    let (synchronized, interleaved, authnak) = (words.flag()?, words.flag()?, words.flag()?);
    bytes.push(u8::from(synchronized) + 2 * u8::from(interleaved) + 4 * u8::from(authnak));
    for _ in 0..4 {
        bytes.extend(words.number::<u64>()?.to_be_bytes());
    }
    Ok(wrote(Ok(bytes), output))
}

/// Rule 17.2.
pub fn reading(words: &mut Words) -> Parsed<String> {
    reading_of_counts(words, 268_435_456.0)
}

/// Rules 17.1, 17.3, 17.4 and 23.5 in f64, as they read, of counts of which so many
/// are a second. No step rounds: that number is a power of two, and each result has
/// at most 34 binary digits.
pub fn reading_of_counts(words: &mut Words, in_a_second: f64) -> Parsed<String> {
    let delay: u32 = words.number()?;
    let dispersion: u32 = words.number()?;
    let [delay, dispersion] = [delay, dispersion].map(|count| f64::from(count) / in_a_second);
    let distance = delay / 2.0 + dispersion;
    let [delay, dispersion, distance] = [delay, dispersion, distance].map(f64::to_bits);
    Ok(format!("0 {delay:016x} {dispersion:016x} {distance:016x}"))
}
