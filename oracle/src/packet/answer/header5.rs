//! The NTPv5 header.

use super::domain::{LONGEST, Outside, inside};
use super::line::Answer;
use super::numbers;
use super::output::{self, Output};
use crate::format::{NotACase, Parsed, Words};
use crate::packet::v5::{
    NtpClientCookie, NtpEra, NtpFlags, NtpHeaderV5, NtpMode, NtpServerCookie, NtpTimescale,
};
use crate::stand_ins::{NtpDuration, NtpLeapIndicator, NtpTimestamp, PollInterval};

pub fn read(words: &mut Words) -> Parsed<Answer> {
    let bytes = words.bytes()?;
    words.end()?;
    Ok(read_header(&bytes).into())
}

fn read_header(bytes: &[u8]) -> Result<Answer, Outside> {
    inside(bytes.len() <= LONGEST, Outside::PacketTooLong)?;
    Ok(match NtpHeaderV5::deserialize(bytes) {
        Ok((header, _)) => Answer::accepted(words_of(&header)),
        Err(refused) => numbers::refusal(&refused),
    })
}

pub fn write(words: &mut Words) -> Parsed<Answer> {
    let output = Output::read(words)?;
    let header = header(words)?;
    words.end()?;
    Ok(write_header(&header, output).into())
}

fn write_header(header: &NtpHeaderV5, output: Output) -> Result<Answer, Outside> {
    output.inside_limits()?;
    let done = output.write(|cursor| header.serialize(cursor));
    Ok(output::answer(done))
}

/// The sixteen words of a header.
fn words_of(header: &NtpHeaderV5) -> String {
    let delay = u32::from_be_bytes(header.root_delay.to_bits_time32());
    let dispersion = u32::from_be_bytes(header.root_dispersion.to_bits_time32());
    format!(
        "{} {} {} {} {} {delay} {dispersion} {} {} {} {} {} {} {} {} {}",
        leap_word(header.leap),
        header.mode as u8,
        header.stratum,
        header.poll.as_byte(),
        header.precision,
        header.timescale as u8,
        header.era.0,
        u8::from(header.flags.synchronized),
        u8::from(header.flags.interleaved_mode),
        u8::from(header.flags.authnak),
        u64::from_be_bytes(header.server_cookie.0),
        u64::from_be_bytes(header.client_cookie.0),
        u64::from_be_bytes(header.receive_timestamp.to_bits()),
        u64::from_be_bytes(header.transmit_timestamp.to_bits()),
    )
}

/// A header of sixteen words, which come in another order than its fields.
fn header(words: &mut Words) -> Parsed<NtpHeaderV5> {
    Ok(NtpHeaderV5 {
        leap: leap(words)?,
        mode: mode(words)?,
        stratum: words.number()?,
        poll: PollInterval::from_byte(words.number()?),
        precision: words.precision()?,
        root_delay: duration(words)?,
        root_dispersion: duration(words)?,
        timescale: timescale(words)?,
        era: NtpEra(words.number()?),
        flags: NtpFlags {
            synchronized: words.flag()?,
            interleaved_mode: words.flag()?,
            authnak: words.flag()?,
        },
        server_cookie: NtpServerCookie(eight_bytes(words)?),
        client_cookie: NtpClientCookie(eight_bytes(words)?),
        receive_timestamp: NtpTimestamp::from_bits(eight_bytes(words)?),
        transmit_timestamp: NtpTimestamp::from_bits(eight_bytes(words)?),
    })
}

/// The leap indicators and their words.
const LEAPS: [(NtpLeapIndicator, &str); 5] = [
    (NtpLeapIndicator::NoWarning, "0"),
    (NtpLeapIndicator::Leap61, "1"),
    (NtpLeapIndicator::Leap59, "2"),
    (NtpLeapIndicator::Unknown, "unknown"),
    (NtpLeapIndicator::Unsynchronized, "unsynchronized"),
];

fn leap_word(leap: NtpLeapIndicator) -> &'static str {
    let found = LEAPS.iter().find(|(known, _)| *known == leap);
    found.expect("every leap indicator has its word").1
}

fn leap(words: &mut Words) -> Parsed<NtpLeapIndicator> {
    let word = words.word()?;
    let found = LEAPS.iter().find(|(_, known)| *known == word);
    found.map(|(leap, _)| *leap).ok_or(NotACase)
}

fn mode(words: &mut Words) -> Parsed<NtpMode> {
    match words.word()? {
        "3" => Ok(NtpMode::Request),
        "4" => Ok(NtpMode::Response),
        _ => Err(NotACase),
    }
}

fn timescale(words: &mut Words) -> Parsed<NtpTimescale> {
    match words.word()? {
        "0" => Ok(NtpTimescale::Utc),
        "1" => Ok(NtpTimescale::Tai),
        "2" => Ok(NtpTimescale::Ut1),
        "3" => Ok(NtpTimescale::LeapSmearedUtc),
        _ => Err(NotACase),
    }
}

fn duration(words: &mut Words) -> Parsed<NtpDuration> {
    let bits: u32 = words.number()?;
    Ok(NtpDuration::from_bits_time32(bits.to_be_bytes()))
}

fn eight_bytes(words: &mut Words) -> Parsed<[u8; 8]> {
    let number: u64 = words.number()?;
    Ok(number.to_be_bytes())
}
