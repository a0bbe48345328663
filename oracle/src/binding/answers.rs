//! The answers of docs/REPLAY.md, through the binding.
//!
//! Most cases are answered through the binding's public interface. What that can't express is answered by the
//! library's own functions (`raw`).

use crate::format::{NotACase, Parsed, Words, hex, list};
use crate::packet::extension_fields::ExtensionHeaderVersion as Theirs;
use crate::{header34, raw, read, write};
use lobzhinar::{
    Cut, ExtensionHeaderVersion, FilterOffset, HeaderError, Mac, NtpClientCookie, NtpEra, NtpFlags,
    NtpHeaderV5, NtpLeapIndicator, NtpMode, NtpServerCookie, NtpTimescale, NtpTimestamp, Packet,
    PayloadLen, PollInterval, ReferenceIdRequest, ReferenceIdResponse, Refusal, SealTable, Time32,
    TimeReading, survey,
};

/// By which functions a case was answered.
#[derive(Clone, Copy, PartialEq)]
pub enum Way {
    Public,
    Raw,
}

/// An answer line, and how it came about.
pub struct Answer {
    pub way: Way,
    pub text: String,
}

impl Answer {
    pub fn public(text: String) -> Self {
        let way = Way::Public;
        Self { way, text }
    }

    pub fn raw(text: String) -> Self {
        let way = Way::Raw;
        Self { way, text }
    }
}

/// Answers cases one after the other, with tables that are used again.
#[derive(Default)]
pub struct Answering {
    reading: read::Reading,
}

impl Answering {
    pub fn answer(&mut self, case: &[u8]) -> Answer {
        self.words(case)
            .unwrap_or_else(|NotACase| Answer::public("?".to_string()))
    }

    fn words(&mut self, case: &[u8]) -> Parsed<Answer> {
        let mut words = Words::of(case)?;
        let words = &mut words;
        match words.word()? {
            "mac-read" => mac_read(words),
            "mac-write" => mac_write(words),
            "header5-read" => header_read(words),
            "header5-write" => header_write(words),
            "reading" => reading(words),
            "header34-read" => header34::read(words),
            "header34-write" => header34::write(words),
            "reading34" => header34::reading(words),
            "request-new" => request_new(words),
            "request-read" => request_read(words),
            "request-write" => request_write(words),
            "response-new" => response_new(words),
            "response-cut" => response_cut(words),
            "response-write" => response_write(words),
            "read" => self.reading.read(words),
            "survey" => surveyed(words),
            "judge" => judged(words),
            "write" => write::write(words),
            _ => Err(NotACase),
        }
    }
}

/// The answer, if no word is left over.
pub fn ended(words: &mut Words, answer: String) -> Parsed<Answer> {
    words.end()?;
    Ok(Answer::public(answer))
}

fn told(result: Result<String, Refusal>) -> String {
    match result {
        Ok(words) => format!("0 {words}"),
        Err(refusal) => refusal.number().to_string(),
    }
}

/// A writer's answer, which ends with the output.
pub fn wrote(result: Result<usize, Refusal>, out: &[u8]) -> String {
    let out = hex(out);
    match result {
        Ok(count) => format!("0 {count} {out}"),
        Err(refusal) => format!("{} {out}", refusal.number()),
    }
}

pub fn version(words: &mut Words) -> Parsed<ExtensionHeaderVersion> {
    Ok(match words.version()? {
        Theirs::V4 => ExtensionHeaderVersion::V4,
        Theirs::V5 => ExtensionHeaderVersion::V5,
    })
}

fn mac_read(words: &mut Words) -> Parsed<Answer> {
    let bytes = words.bytes()?;
    let mac = Mac::deserialize(&bytes);
    ended(
        words,
        told(mac.map(|mac| format!("{} {}", mac.keyid, hex(mac.mac)))),
    )
}

fn mac_write(words: &mut Words) -> Parsed<Answer> {
    let keyid = words.number()?;
    let (mac, at, mut out) = (words.bytes()?, words.number::<u64>()?, words.bytes()?);
    let written = Mac { keyid, mac: &mac }.serialize(&mut out, at as usize);
    ended(words, wrote(written, &out))
}

fn header_read(words: &mut Words) -> Parsed<Answer> {
    let bytes = words.bytes()?;
    let answer = match NtpHeaderV5::deserialize(&bytes) {
        Ok(header) => format!("0 {}", words_of(&header)),
        Err(HeaderError::InvalidVersion(version)) => format!("11 {version}"),
        Err(refused) => refused.number().to_string(),
    };
    ended(words, answer)
}

fn header_write(words: &mut Words) -> Parsed<Answer> {
    let (at, mut out) = (words.number::<u64>()?, words.bytes()?);
    let header = header(words)?;
    let written = header.serialize(&mut out, at as usize);
    ended(words, wrote(written, &out))
}

fn words_of(header: &NtpHeaderV5) -> String {
    let flags = header.flags;
    format!(
        "{} {} {} {} {} {} {} {} {} {} {} {} {} {} {} {}",
        LEAPS[header.leap as usize].0,
        header.mode as u8,
        header.stratum,
        header.poll.as_byte(),
        header.precision_log2_seconds,
        header.root_delay.units_of_2pow_minus_28_s(),
        header.root_dispersion.units_of_2pow_minus_28_s(),
        header.timescale as u8,
        header.era.0,
        u8::from(flags.synchronized),
        u8::from(flags.interleaved_mode),
        u8::from(flags.authnak),
        header.server_cookie.0,
        header.client_cookie.0,
        header.receive_timestamp.units_of_2pow_minus_32_s_in_era(),
        header.transmit_timestamp.units_of_2pow_minus_32_s_in_era(),
    )
}

const LEAPS: [(&str, NtpLeapIndicator); 5] = [
    ("0", NtpLeapIndicator::NoWarning),
    ("1", NtpLeapIndicator::Leap61),
    ("2", NtpLeapIndicator::Leap59),
    ("unknown", NtpLeapIndicator::Unknown),
    ("unsynchronized", NtpLeapIndicator::Unsynchronized),
];

const MODES: [(&str, NtpMode); 2] = [("3", NtpMode::Request), ("4", NtpMode::Response)];

const TIMESCALES: [(&str, NtpTimescale); 4] = [
    ("0", NtpTimescale::Utc),
    ("1", NtpTimescale::Tai),
    ("2", NtpTimescale::Ut1),
    ("3", NtpTimescale::LeapSmearedUtc),
];

/// What the next word stands for.
fn one_of<T: Copy>(words: &mut Words, names: &[(&str, T)]) -> Parsed<T> {
    let word = words.word()?;
    let found = names.iter().find(|(name, _)| *name == word);
    found.map(|(_, value)| *value).ok_or(NotACase)
}

fn header(words: &mut Words) -> Parsed<NtpHeaderV5> {
    let (leap, mode) = (one_of(words, &LEAPS)?, one_of(words, &MODES)?);
    let (stratum, poll) = (words.number()?, words.number()?);
    let precision = words.precision()?;
    let (root_delay, root_dispersion) = (time(words)?, time(words)?);
    Ok(NtpHeaderV5 {
        leap,
        mode,
        stratum,
        poll: PollInterval::from_byte(poll),
        precision_log2_seconds: precision,
        root_delay,
        root_dispersion,
        timescale: one_of(words, &TIMESCALES)?,
        era: NtpEra(words.number()?),
        flags: NtpFlags {
            synchronized: words.flag()?,
            interleaved_mode: words.flag()?,
            authnak: words.flag()?,
        },
        server_cookie: NtpServerCookie(words.number()?),
        client_cookie: NtpClientCookie(words.number()?),
        receive_timestamp: timestamp(words)?,
        transmit_timestamp: timestamp(words)?,
    })
}

fn time(words: &mut Words) -> Parsed<Time32> {
    words.number().map(Time32::from_units_of_2pow_minus_28_s)
}

pub fn timestamp(words: &mut Words) -> Parsed<NtpTimestamp> {
    words
        .number()
        .map(NtpTimestamp::from_units_of_2pow_minus_32_s_in_era)
}

/// A reading is one of a header, so the two times are put into one.
fn reading(words: &mut Words) -> Parsed<Answer> {
    let header = NtpHeaderV5 {
        leap: NtpLeapIndicator::NoWarning,
        mode: NtpMode::Response,
        stratum: 0,
        poll: PollInterval::from_byte(0),
        precision_log2_seconds: 0,
        root_delay: time(words)?,
        root_dispersion: time(words)?,
        timescale: NtpTimescale::Utc,
        era: NtpEra(0),
        flags: NtpFlags {
            synchronized: false,
            interleaved_mode: false,
            authnak: false,
        },
        server_cookie: NtpServerCookie(0),
        client_cookie: NtpClientCookie(0),
        receive_timestamp: NtpTimestamp::from_units_of_2pow_minus_32_s_in_era(0),
        transmit_timestamp: NtpTimestamp::from_units_of_2pow_minus_32_s_in_era(0),
    };
    ended(words, seconds(header.time_reading()))
}

/// A reading's answer: the bits of its three numbers.
pub fn seconds(reading: TimeReading) -> String {
    let times = [
        reading.delay_seconds,
        reading.dispersion_seconds,
        reading.distance_seconds,
    ];
    let [delay, dispersion, distance] = times.map(|time| hex(&time.to_bits().to_be_bytes()));
    format!("0 {delay} {dispersion} {distance}")
}

fn request(made: Result<ReferenceIdRequest, Refusal>) -> String {
    told(made.map(|made| format!("{} {}", made.payload_len().0, made.filter_offset().0)))
}

fn request_new(words: &mut Words) -> Parsed<Answer> {
    let (payload_len, filter_offset) = (words.number()?, words.number()?);
    let made = ReferenceIdRequest::new(PayloadLen(payload_len), FilterOffset(filter_offset));
    ended(words, request(made))
}

fn request_read(words: &mut Words) -> Parsed<Answer> {
    let made = ReferenceIdRequest::decode(&words.bytes()?);
    ended(words, request(made))
}

/// A request with these numbers, if the binding has one: a new request is held to the filter's size, but one that is
/// read may have any numbers, as long as its message has the two bytes of the offset.
pub fn request_of(payload_len: u16, filter_offset: u16) -> Option<ReferenceIdRequest> {
    let mut message = vec![0; usize::from(payload_len)];
    message
        .get_mut(..2)?
        .copy_from_slice(&filter_offset.to_be_bytes());
    ReferenceIdRequest::decode(&message).ok()
}

fn request_write(words: &mut Words) -> Parsed<Answer> {
    let (payload_len, filter_offset) = (words.number()?, words.number()?);
    let (at, mut out) = (words.number::<u64>()? as usize, words.bytes()?);
    words.end()?;
    Ok(match request_of(payload_len, filter_offset) {
        Some(request) => {
            let written = request.serialize(&mut out, at);
            Answer::public(wrote(written, &out))
        }
        None => {
            let written = raw::request_write(payload_len, filter_offset, &mut out, at);
            Answer::raw(raw::wrote(written, &out))
        }
    })
}

fn response_new(words: &mut Words) -> Parsed<Answer> {
    let bytes = words.bytes()?;
    let made = ReferenceIdResponse::new(&bytes);
    ended(words, told(made.map(|made| made.bytes().len().to_string())))
}

fn response_cut(words: &mut Words) -> Parsed<Answer> {
    let (payload_len, filter_offset) = (words.number()?, words.number()?);
    let filter = words.bytes()?;
    words.end()?;
    Ok(match request_of(payload_len, filter_offset) {
        Some(request) => {
            let made = request.to_response(&filter);
            Answer::public(told(made.map(|made| hex(made.bytes()))))
        }
        None => Answer::raw(
            match raw::response_cut(payload_len, filter_offset, &filter) {
                Ok(len) => format!("0 {}", hex(&filter[usize::from(filter_offset)..][..len])),
                Err(number) => number.to_string(),
            },
        ),
    })
}

fn response_write(words: &mut Words) -> Parsed<Answer> {
    let (bytes, at, mut out) = (words.bytes()?, words.number::<u64>()?, words.bytes()?);
    let written = ReferenceIdResponse::decode(&bytes).serialize(&mut out, at as usize);
    ended(words, wrote(written, &out))
}

fn surveyed(words: &mut Words) -> Parsed<Answer> {
    let version = version(words)?;
    let (header, packet) = (words.number::<u64>()?, words.bytes()?);
    let mut table = SealTable::new();
    let survey = survey(
        Packet::with_header(version, header as usize, &packet),
        &mut table,
    );
    let (number, offset) = survey.fault().map_or((0, 0), |fault| {
        let offset = fault.field_offset.bytes_from_packet_start();
        (fault.refusal.number(), offset)
    });
    // The binding hands back slices; where they lie says the rest.
    let place = |part: &[u8]| part.as_ptr().addr() - packet.as_ptr().addr();
    let entries: Vec<String> = survey
        .iter()
        .map(|sealed| {
            let (nonce, ciphertext) = (sealed.nonce(), sealed.ciphertext());
            let before = sealed.associated_data();
            assert_eq!(place(before), 0);
            assert_eq!(
                sealed.packet_offset().bytes_from_packet_start(),
                before.len()
            );
            format!(
                "{}:{}:{}:{}:{}",
                place(nonce),
                nonce.len(),
                place(ciphertext),
                ciphertext.len(),
                before.len()
            )
        })
        .collect();
    ended(words, format!("{number} {offset} {}", list(&entries)))
}

/// A case of two lists. If they have one length, a table of the same pairs has to get the same verdict.
fn judged(words: &mut Words) -> Parsed<Answer> {
    let version = version(words)?;
    let (header, bytes) = (words.number::<u64>()?, words.bytes()?);
    let (field_offsets, wire_lengths) = (sizes(words)?, sizes(words)?);
    let packet = Packet::with_header(version, header as usize, &bytes);
    let is_cut = packet.is_cut_lists(&field_offsets, &wire_lengths);
    if field_offsets.len() == wire_lengths.len() {
        let pairs = field_offsets.into_iter().zip(wire_lengths);
        let cuts: Vec<Cut> = pairs
            .map(|(field_offset, wire_length)| Cut {
                field_offset,
                wire_length,
            })
            .collect();
        if packet.is_cut(&cuts) != is_cut {
            return ended(words, format!("by lists {is_cut}, by a table not"));
        }
    }
    let answer = if is_cut { "yes" } else { "no" };
    ended(words, answer.to_string())
}

/// The numbers of a list.
fn sizes(words: &mut Words) -> Parsed<Vec<usize>> {
    let numbers = words.numbers()?.into_iter();
    Ok(numbers.map(|number| number as usize).collect())
}
