//! The 48-byte header of RFC 5905: NTPv3 and NTPv4.

use super::domain::{LONGEST, Outside, inside};
use super::line::Answer;
use super::numbers;
use super::output::{self, Output};
use super::script::Sealer;
use crate::format::{Parsed, Words};
use crate::packet::extension_fields::ExtensionFieldData;
use crate::packet::{NtpAssociationMode, NtpHeader, NtpHeaderV3V4, NtpLeapIndicator, NtpPacket};
use crate::stand_ins::{NtpDuration, NtpTimestamp, PollInterval, ReferenceId};

/// A header alone has nothing to seal or to open.
const NO_CIPHER: Option<Sealer> = None;

pub fn read(words: &mut Words) -> Parsed<Answer> {
    let bytes = words.bytes()?;
    words.end()?;
    Ok(read_header(&bytes).into())
}

fn read_header(bytes: &[u8]) -> Result<Answer, Outside> {
    inside(bytes.len() <= LONGEST, Outside::PacketTooLong)?;
    version_inside(bytes)?;
    // The crate's reader of a packet chooses the header by its version. It also
    // reads what follows, so it is handed the header alone.
    let alone = &bytes[..bytes.len().min(NtpHeaderV3V4::WIRE_LENGTH)];
    Ok(match NtpPacket::deserialize(alone, &NO_CIPHER) {
        Ok((packet, _)) => accepted(&packet.header, bytes),
        Err(refused) => numbers::refusal(&refused),
    })
}

/// The crate looks at the version before it looks at the length, and has another
/// header for version 5. Too few bytes of version 5 both refuse with 1.
fn version_inside(bytes: &[u8]) -> Result<(), Outside> {
    let whole = bytes.len() >= NtpHeaderV3V4::WIRE_LENGTH;
    match bytes.first().map(|first| first >> 3 & 7) {
        None | Some(3 | 4) => Ok(()),
        Some(5) => inside(!whole, Outside::HeaderOfVersion5),
        Some(_) => inside(whole, Outside::VersionBeforeLength),
    }
}

/// The answer to a header that was read. The crate's reader of the header itself
/// has to get the same out of all bytes.
fn accepted(header: &NtpHeader, bytes: &[u8]) -> Answer {
    let (version, header) = match header {
        NtpHeader::V3(header) => (3, header),
        NtpHeader::V4(header) => (4, header),
        NtpHeader::V5(_) => unreachable!("a header of version 5 is outside the domain"),
    };
    match NtpHeaderV3V4::deserialize(bytes) {
        Ok((same, _)) if same == *header => Answer::accepted(words_of(version, header)),
        _ => Answer::Panic("panic header"),
    }
}

pub fn write(words: &mut Words) -> Parsed<Answer> {
    let output = Output::read(words)?;
    let header = header(words)?;
    words.end()?;
    Ok(write_header(header, output).into())
}

fn write_header(header: Option<NtpHeader>, output: Output) -> Result<Answer, Outside> {
    let packet = NtpPacket {
        header: header.ok_or(Outside::HeaderNotWritable)?,
        efdata: ExtensionFieldData::default(),
        mac: None,
    };
    output.inside_limits()?;
    let done = output.write(|cursor| packet.serialize(cursor, &NO_CIPHER, None));
    Ok(output::answer(done))
}

/// The leap indicators by their two bits. No header is read as Unknown.
const LEAPS: [NtpLeapIndicator; 4] = [
    NtpLeapIndicator::NoWarning,
    NtpLeapIndicator::Leap61,
    NtpLeapIndicator::Leap59,
    NtpLeapIndicator::Unsynchronized,
];

/// The modes by their three bits.
const MODES: [NtpAssociationMode; 8] = [
    NtpAssociationMode::Reserved,
    NtpAssociationMode::SymmetricActive,
    NtpAssociationMode::SymmetricPassive,
    NtpAssociationMode::Client,
    NtpAssociationMode::Server,
    NtpAssociationMode::Broadcast,
    NtpAssociationMode::Control,
    NtpAssociationMode::Private,
];

/// The place of a case of the crate in one of the lists above.
fn place<T: PartialEq>(list: &[T], case: &T) -> usize {
    let place = list.iter().position(|known| known == case);
    place.expect("the wire has bits for every case")
}

/// The thirteen words of a header.
fn words_of(version: u8, header: &NtpHeaderV3V4) -> String {
    let delay = u32::from_be_bytes(header.root_delay.to_bits_short());
    let dispersion = u32::from_be_bytes(header.root_dispersion.to_bits_short());
    format!(
        "{} {version} {} {} {} {} {delay} {dispersion} {} {} {} {} {}",
        place(&LEAPS, &header.leap),
        place(&MODES, &header.mode),
        header.stratum,
        header.poll.as_byte(),
        header.precision,
        u32::from_be_bytes(header.reference_id.to_bytes()),
        u64::from_be_bytes(header.reference_timestamp.to_bits()),
        u64::from_be_bytes(header.origin_timestamp.to_bits()),
        u64::from_be_bytes(header.receive_timestamp.to_bits()),
        u64::from_be_bytes(header.transmit_timestamp.to_bits()),
    )
}

/// A header of thirteen words, or none where the crate has no such leap, version
/// or mode.
fn header(words: &mut Words) -> Parsed<Option<NtpHeader>> {
    let (leap, version, mode) = (words.number()?, words.number()?, words.number()?);
    let rest = after_mode(words)?;
    Ok(with_first_byte(leap, version, mode, rest))
}

/// The ten words after the mode, in a header whose leap and mode are still 0.
fn after_mode(words: &mut Words) -> Parsed<NtpHeaderV3V4> {
    Ok(NtpHeaderV3V4 {
        leap: LEAPS[0],
        mode: MODES[0],
        stratum: words.number()?,
        poll: PollInterval::from_byte(words.number()?),
        precision: words.precision()?,
        root_delay: NtpDuration::from_bits_short(four_bytes(words)?),
        root_dispersion: NtpDuration::from_bits_short(four_bytes(words)?),
        reference_id: ReferenceId::from_bytes(four_bytes(words)?),
        reference_timestamp: timestamp(words)?,
        origin_timestamp: timestamp(words)?,
        receive_timestamp: timestamp(words)?,
        transmit_timestamp: timestamp(words)?,
    })
}

fn with_first_byte(leap: u8, version: u8, mode: u8, rest: NtpHeaderV3V4) -> Option<NtpHeader> {
    let header = NtpHeaderV3V4 {
        leap: *LEAPS.get(usize::from(leap))?,
        mode: *MODES.get(usize::from(mode))?,
        ..rest
    };
    match version {
        3 => Some(NtpHeader::V3(header)),
        4 => Some(NtpHeader::V4(header)),
        _ => None,
    }
}

fn four_bytes(words: &mut Words) -> Parsed<[u8; 4]> {
    let number: u32 = words.number()?;
    Ok(number.to_be_bytes())
}

fn timestamp(words: &mut Words) -> Parsed<NtpTimestamp> {
    let number: u64 = words.number()?;
    Ok(NtpTimestamp::from_bits(number.to_be_bytes()))
}
