//! The header of NTPv3 and NTPv4, and its reading.

use crate::answers::{Answer, ended, seconds, timestamp, wrote};
use crate::format::{Parsed, Words};
use crate::raw;
use lobzhinar::{
    HeaderError, LeapBits, NtpAssociationMode, NtpHeaderV3V4, NtpShort, NtpTimestamp,
    NtpVersionV3V4, PollInterval, ReferenceId, ffi,
};

/// The leaps by their two bits.
const LEAPS: [LeapBits; 4] = [
    LeapBits::NoWarning,
    LeapBits::Leap61,
    LeapBits::Leap59,
    LeapBits::Unsynchronized,
];

/// The modes by their three bits.
const MODES: [NtpAssociationMode; 8] = [
    NtpAssociationMode::Reserved,
    NtpAssociationMode::SymmetricActive,
    NtpAssociationMode::SymmetricPassive,
    NtpAssociationMode::Client,
    NtpAssociationMode::Server,
    NtpAssociationMode::Broadcast,
    NtpAssociationMode::Control,
    NtpAssociationMode::Private,
];

pub fn read(words: &mut Words) -> Parsed<Answer> {
    let bytes = words.bytes()?;
    let answer = match NtpHeaderV3V4::deserialize(&bytes) {
        Ok(header) => format!("0 {}", words_of(&header)),
        Err(HeaderError::InvalidVersion(version)) => format!("11 {version}"),
        Err(refused) => refused.number().to_string(),
    };
    ended(words, answer)
}

/// The thirteen words of a header.
fn words_of(header: &NtpHeaderV3V4) -> String {
    let place = |found: Option<usize>| found.expect("the list has every case");
    format!(
        "{} {} {} {} {} {} {} {} {} {} {} {} {}",
        place(LEAPS.iter().position(|leap| *leap == header.leap)),
        match header.version {
            NtpVersionV3V4::V3 => 3,
            NtpVersionV3V4::V4 => 4,
        },
        place(MODES.iter().position(|mode| *mode == header.mode)),
        header.stratum,
        header.poll.as_byte(),
        header.precision_log2_seconds,
        header.root_delay.units_of_2pow_minus_16_s(),
        header.root_dispersion.units_of_2pow_minus_16_s(),
        u32::from_be_bytes(header.reference_id.to_bytes()),
        header.reference_timestamp.units_of_2pow_minus_32_s_in_era(),
        header.origin_timestamp.units_of_2pow_minus_32_s_in_era(),
        header.receive_timestamp.units_of_2pow_minus_32_s_in_era(),
        header.transmit_timestamp.units_of_2pow_minus_32_s_in_era(),
    )
}

pub fn write(words: &mut Words) -> Parsed<Answer> {
    let (at, mut out) = (words.number::<u64>()? as usize, words.bytes()?);
    let header = header(words)?;
    words.end()?;
    Ok(match expressed(&header) {
        Some(header) => {
            let written = header.serialize(&mut out, at);
            Answer::public(wrote(written, &out))
        }
        None => {
            let written = raw::header34_write(&header, &mut out, at);
            Answer::raw(raw::wrote(written, &out))
        }
    })
}

/// A header of thirteen words. Its leap, version and mode may be any numbers.
fn header(words: &mut Words) -> Parsed<ffi::NtpHeaderV3V4> {
    Ok(ffi::NtpHeaderV3V4 {
        leap: ffi::NtpLeapBits {
            bits: words.number()?,
        },
        version: words.number()?,
        mode: words.number()?,
        stratum: words.number()?,
        poll: PollInterval::from_byte(words.number()?),
        precision_log2_seconds: words.precision()?,
        root_delay: time(words)?,
        root_dispersion: time(words)?,
        reference_id: ReferenceId::from_bytes(words.number::<u32>()?.to_be_bytes()),
        reference_timestamp: timestamp(words)?,
        origin_timestamp: timestamp(words)?,
        receive_timestamp: timestamp(words)?,
        transmit_timestamp: timestamp(words)?,
    })
}

/// The same by the binding's types, which have no other leap, version or mode than those of the wire.
fn expressed(header: &ffi::NtpHeaderV3V4) -> Option<NtpHeaderV3V4> {
    Some(NtpHeaderV3V4 {
        leap: *LEAPS.get(usize::from(header.leap.bits))?,
        version: match header.version {
            3 => NtpVersionV3V4::V3,
            4 => NtpVersionV3V4::V4,
            _ => return None,
        },
        mode: *MODES.get(usize::from(header.mode))?,
        stratum: header.stratum,
        poll: header.poll,
        precision_log2_seconds: header.precision_log2_seconds,
        root_delay: header.root_delay,
        root_dispersion: header.root_dispersion,
        reference_id: header.reference_id,
        reference_timestamp: header.reference_timestamp,
        origin_timestamp: header.origin_timestamp,
        receive_timestamp: header.receive_timestamp,
        transmit_timestamp: header.transmit_timestamp,
    })
}

fn time(words: &mut Words) -> Parsed<NtpShort> {
    words.number().map(NtpShort::from_units_of_2pow_minus_16_s)
}

/// A reading is one of a header, so the two times are put into one.
pub fn reading(words: &mut Words) -> Parsed<Answer> {
    let no_time = NtpTimestamp::from_units_of_2pow_minus_32_s_in_era(0);
    let header = NtpHeaderV3V4 {
        leap: LeapBits::NoWarning,
        version: NtpVersionV3V4::V4,
        mode: NtpAssociationMode::Server,
        stratum: 0,
        poll: PollInterval::from_byte(0),
        precision_log2_seconds: 0,
        root_delay: time(words)?,
        root_dispersion: time(words)?,
        reference_id: ReferenceId::from_bytes([0; 4]),
        reference_timestamp: no_time,
        origin_timestamp: no_time,
        receive_timestamp: no_time,
        transmit_timestamp: no_time,
    };
    ended(words, seconds(header.time_reading()))
}
