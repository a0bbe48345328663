//! Regions of short fields, exhaustively.

use super::fields::{COOKIE, DRAFT, PLACEHOLDER, PLAIN_TYPES, SEALED, UNIQUE_IDENTIFIER};
use super::packets::{Packet, Sealing};
use super::random::{NEAR_FORMER_MOST_FIELDS, NEAR_MOST_FIELDS, Random};
use crate::packet::answer::domain::{LONGEST, MOST_FIELDS};
use std::io::Result;

/// Takes each packet in turn.
type Sink<'a> = dyn FnMut(&Packet) -> Result<()> + 'a;

/// A short field, and what it is opened to if it is sealed.
#[derive(Copy, Clone)]
pub struct Letter {
    field: &'static [u8],
    sealing: Option<(u64, &'static [u8])>,
}

/// Fields that are not sealed. Three of them are faulty in V5 and more in V4.
const PLAIN: [&[u8]; 13] = [
    &[0x01, 0x04, 0, 4],
    &[0x01, 0x04, 0, 6, 0xAA, 0xBB, 0xCC, 0xDD],
    &[0x02, 0x04, 0, 8, 1, 2, 3, 4],
    &[0x03, 0x04, 0, 8, 0, 0, 0, 0],
    &[0x03, 0x04, 0, 8, 0, 0, 0, 1],
    &[0xF5, 0xFF, 0, 8, b'd', b'r', b'a', 0],
    &[0xF5, 0xFF, 0, 8, b'd', 0x80, b'a', 0],
    &[0xF5, 0x03, 0, 4],
    &[0xF5, 0x03, 0, 8, 0, 4, 0, 0],
    &[0xF5, 0x04, 0, 8, 5, 6, 7, 8],
    &[0xF5, 0x01, 0, 8, 0, 0, 0, 0],
    &[0x00, 0x00, 0, 3],
    &[0x01, 0x04, 0, 64],
];

/// A sealed field without nonce or ciphertext.
const SEALED_EMPTY: &[u8] = &[0x04, 0x04, 0, 8, 0, 0, 0, 0];

/// A sealed field with eight bytes of ciphertext.
const SEALED_EIGHT: &[u8] = &[0x04, 0x04, 0, 16, 0, 0, 0, 8, 9, 9, 9, 9, 9, 9, 9, 9];

/// A sealed field too short for the lengths inside it.
const SEALED_SHORT: &[u8] = &[0x04, 0x04, 0, 4];

/// Plaintexts of at most eight bytes; all but the first two are faulty.
const PLAINTEXTS: [&[u8]; 7] = [
    &[0x01, 0x04, 0, 4],
    &[0x03, 0x04, 0, 8, 0, 0, 0, 0],
    SEALED_EMPTY,
    &[0x03, 0x04, 0, 8, 1, 0, 0, 0],
    &[0xF5, 0xFF, 0, 8, 0x80, 0, 0, 0],
    &[0xF5, 0x03, 0, 5, 0, 0, 0, 0],
    &[0x01, 0x04, 0, 4, 0, 0, 0],
];

/// A plain field without message.
const PLAIN_EMPTY: Letter = Letter {
    field: &[0x01, 0x04, 0, 4],
    sealing: None,
};

/// A sealed field with this verdict, which opens to nothing.
fn sealed(verdict: u64) -> Letter {
    Letter {
        field: SEALED_EMPTY,
        sealing: Some((verdict, &[])),
    }
}

/// The alphabet of a region.
pub fn letters() -> Vec<Letter> {
    let mut letters = letters_but_for_results();
    letters.retain(|letter| letter.sealing.is_none());
    let opened = |plaintext| Letter {
        field: SEALED_EIGHT,
        sealing: Some((2, plaintext)),
    };
    letters.extend([0, 1, 2, 3].map(sealed));
    letters.extend(PLAINTEXTS.map(opened));
    letters
}

/// The alphabet where results are not looked at.
pub fn letters_but_for_results() -> Vec<Letter> {
    let letter = |field, sealing| Letter { field, sealing };
    let mut letters = PLAIN.map(|field| letter(field, None)).to_vec();
    letters.push(letter(SEALED_SHORT, None));
    letters.push(sealed(1));
    letters.push(letter(SEALED_EIGHT, Some((1, &[]))));
    letters
}

/// All regions of up to three letters. In V4 each of them also stands before
/// 24 bytes, so that all its fields are read, and the shorter ones before
/// remainders of lengths around that.
pub fn sequences(letters: &[Letter], sink: &mut Sink) -> Result<()> {
    let mut sequences = vec![Vec::new()];
    for round in 0..=3 {
        for sequence in &sequences {
            let tails: &[usize] = if round < 3 {
                &[0, 1, 20, 23, 24, 25, 28]
            } else {
                &[0, 24]
            };
            emit(sequence, tails, sink)?;
        }
        sequences = longer(&sequences, letters);
    }
    Ok(())
}

/// Each sequence with each letter after it.
fn longer(sequences: &[Vec<Letter>], letters: &[Letter]) -> Vec<Vec<Letter>> {
    let with = |sequence: &Vec<Letter>, letter: &Letter| {
        let mut sequence = sequence.clone();
        sequence.push(*letter);
        sequence
    };
    sequences
        .iter()
        .flat_map(|sequence| letters.iter().map(|letter| with(sequence, letter)))
        .collect()
}

fn emit(sequence: &[Letter], tails: &[usize], sink: &mut Sink) -> Result<()> {
    let bytes: Vec<u8> = sequence.iter().flat_map(|l| l.field).copied().collect();
    sink(&region(5, bytes.clone(), sealings(sequence)))?;
    for tail in tails {
        let tail = vec![0x5A; *tail];
        let bytes = [&bytes[..], &tail].concat();
        sink(&region(4, bytes, sealings(sequence)))?;
    }
    Ok(())
}

fn sealings(sequence: &[Letter]) -> Vec<Sealing> {
    let sealing = |letter: &Letter| {
        letter.sealing.map(|(verdict, plaintext)| Sealing {
            verdict,
            plaintext: plaintext.to_vec(),
        })
    };
    sequence.iter().filter_map(sealing).collect()
}

/// A packet without header.
fn region(version: u8, bytes: Vec<u8>, sealings: Vec<Sealing>) -> Packet {
    Packet {
        version,
        header: 0,
        bytes,
        sealings,
    }
}

fn opened(plaintext: Vec<u8>) -> Sealing {
    Sealing {
        verdict: 2,
        plaintext,
    }
}

/// One field of each named type, with every stated length up to 12 over every
/// number of bytes up to 16, of zeros and of ones. In V4 24 bytes follow.
pub fn single_fields(sink: &mut Sink) -> Result<()> {
    for type_id in PLAIN_TYPES.into_iter().chain([SEALED, 0x0000]) {
        for stated in 0..=12_u16 {
            for present in 0..=16 {
                for filler in [0, 1] {
                    let mut bytes = type_id.to_be_bytes().to_vec();
                    bytes.extend(stated.to_be_bytes());
                    bytes.resize(present, filler);
                    sink(&region(5, bytes.clone(), vec![opened(Vec::new())]))?;
                    bytes.extend([filler; 24]);
                    sink(&region(4, bytes, vec![opened(Vec::new())]))?;
                }
            }
        }
    }
    Ok(())
}

/// Sealed fields with every message length up to 16 and every length of nonce
/// and ciphertext up to 9.
pub fn inner_lengths(sink: &mut Sink) -> Result<()> {
    for message in 0..=16_u8 {
        for nonce in 0..=9 {
            for ciphertext in 0..=9 {
                let mut bytes = vec![4, 4, 0, 4 + message, 0, nonce, 0, ciphertext];
                bytes.resize(8.max(4 + usize::from(message)), 0x77);
                bytes.truncate(4 + usize::from(message));
                bytes.resize(bytes.len().next_multiple_of(4), 0);
                sink(&region(5, bytes.clone(), vec![opened(Vec::new())]))?;
                bytes.extend([0x5A; 24]);
                sink(&region(4, bytes, vec![opened(Vec::new())]))?;
            }
        }
    }
    Ok(())
}

/// Placeholders and draft identifications of every length up to 136, which is past
/// two blocks of 64: as they should be, and with a byte that is refused at every
/// place; in the packet and in a plaintext.
pub fn scanned(sink: &mut Sink) -> Result<()> {
    for (type_id, good, bad) in [(PLACEHOLDER, 0, 1), (DRAFT, b'd', 0x80)] {
        for length in 0..=136_u8 {
            let mut field = type_id.to_be_bytes().to_vec();
            field.extend([0, 4 + length]);
            field.resize(4 + usize::from(length), good);
            for place in 3..field.len() {
                let mut bytes = field.clone();
                if place > 3 {
                    bytes[place] = bad;
                }
                bytes.resize(bytes.len().next_multiple_of(4), bad);
                sink(&region(5, bytes.clone(), Vec::new()))?;
                // A ciphertext as long as the plaintext, and no nonce.
                let length = bytes.len() as u8;
                let mut sealed = vec![4, 4, 0, 8 + length, 0, 0, 0, length];
                sealed.resize(8 + bytes.len(), 0xCC);
                sink(&region(5, sealed, vec![opened(bytes)]))?;
            }
        }
    }
    Ok(())
}

/// Packets and headers of sizes at their limits and past them. A long packet
/// begins with a field of 65,532 bytes.
pub fn sizes(sink: &mut Sink) -> Result<()> {
    for version in [4, 5] {
        for length in [0, 1, 24, 48, 65_535, 65_536, 65_540, 70_000] {
            let mut bytes = vec![0; length];
            if length > 65_532 {
                bytes[..4].copy_from_slice(&[0x02, 0x04, 0xFF, 0xFC]);
            }
            for header in [0, length, length + 1, length + 2, 65_536, usize::MAX] {
                let mut packet = region(version, bytes.clone(), Vec::new());
                packet.header = header;
                sink(&packet)?;
            }
        }
    }
    Ok(())
}

/// As many items, sealed fields and inner fields as there is room for, a few less,
/// and more.
pub fn table_limits(sink: &mut Sink) -> Result<()> {
    for count in NEAR_FORMER_MOST_FIELDS.chain(NEAR_MOST_FIELDS).chain([200]) {
        outer_limits(count, sink)?;
        inner_limits(count, sink)?;
    }
    both_limits(sink)?;
    // As many opened fields as a packet has room for, with a remainder in V4.
    let count = (LONGEST - 24) / SEALED_EMPTY.len();
    emit(&vec![sealed(2); count], &[24], sink)
}

/// So many fields of one kind. So many items of both kinds, without opened fields
/// and with as many between them.
fn outer_limits(count: usize, sink: &mut Sink) -> Result<()> {
    let all = |letter| vec![letter; count];
    let [plain, marker, opening] = [PLAIN_EMPTY, sealed(1), sealed(2)];
    let mixed = [plain, marker].repeat(count.div_ceil(2))[..count].to_vec();
    for mut sequence in [
        all(plain),
        all(sealed(0)),
        all(marker),
        all(opening),
        all(sealed(3)),
        mixed,
        [plain, opening].repeat(count),
        [opening, marker].repeat(count),
    ] {
        emit(&sequence, &[24], sink)?;
        let last = sequence.len() - 1;
        sequence.push(opening);
        emit(&sequence, &[24], sink)?;
        // A fault in the last of them comes before their number.
        sequence[last].field = SEALED_SHORT;
        emit(&sequence, &[24], sink)?;
    }
    Ok(())
}

/// So many inner fields: in one to three sealed fields, and each in one of its own.
fn inner_limits(count: usize, sink: &mut Sink) -> Result<()> {
    let (half, third) = (count / 2, count / 3);
    for parts in [
        vec![count],
        vec![count, 0],
        vec![1, count - 1],
        vec![half, count - half],
        vec![third, third, count - 2 * third],
        vec![1; count],
    ] {
        emit_opened(&[], &parts, &[], sink)?;
    }
    Ok(())
}

/// As many items and as many inner fields as there is room for, and one more of
/// either, the sealed field first and last.
fn both_limits(sink: &mut Sink) -> Result<()> {
    for items in [MOST_FIELDS, MOST_FIELDS + 1] {
        let items = PLAIN_EMPTY.field.repeat(items);
        for inner in [MOST_FIELDS, MOST_FIELDS + 1] {
            emit_opened(&items, &[inner], &[], sink)?;
            emit_opened(&[], &[inner], &items, sink)?;
        }
    }
    Ok(())
}

/// Opened fields that hold so many inner fields each, with fields before and after
/// them. In V4 24 bytes follow.
fn emit_opened(before: &[u8], parts: &[usize], after: &[u8], sink: &mut Sink) -> Result<()> {
    let mut bytes = before.to_vec();
    let mut sealings = Vec::new();
    for &part in parts {
        let length = 4 * part as u16;
        bytes.extend(SEALED.to_be_bytes());
        bytes.extend((8 + length).to_be_bytes());
        bytes.extend([0, 0]);
        bytes.extend(length.to_be_bytes());
        bytes.extend(vec![0x33; length.into()]);
        sealings.push(opened([0x02, 0x04, 0, 4].repeat(part)));
    }
    bytes.extend(after);
    let mut packet = region(5, bytes, sealings);
    sink(&packet)?;
    packet.version = 4;
    packet.bytes.extend([0x5A; 24]);
    sink(&packet)
}

/// A good packet of either version, cut at every place, and with every byte
/// changed, taken away or doubled.
pub fn damaged(random: &mut Random, sink: &mut Sink) -> Result<()> {
    for version in [4, 5] {
        let good = good_region(version);
        for place in 0..good.len() {
            let mut copies = vec![good[..place].to_vec(), good.clone(), good.clone()];
            copies[1].remove(place);
            copies[2].insert(place, good[place]);
            for mask in [0x01, 0x04, 0x80, random.byte()] {
                let mut copy = good.clone();
                copy[place] ^= mask;
                copies.push(copy);
            }
            for copy in copies {
                let plaintext = [0x02, 0x04, 0, 8, 1, 2, 3, 4].to_vec();
                let sealings = vec![opened(plaintext), opened(Vec::new())];
                sink(&region(version, copy, sealings))?;
            }
        }
    }
    Ok(())
}

/// Fields of every named kind, of which two are sealed.
fn good_region(version: u8) -> Vec<u8> {
    let mut bytes = Vec::new();
    let mut add = |type_id: u16, message: &[u8]| {
        bytes.extend(type_id.to_be_bytes());
        bytes.extend((4 + message.len() as u16).to_be_bytes());
        bytes.extend(message);
    };
    add(UNIQUE_IDENTIFIER, b"identifier..");
    add(PLACEHOLDER, &[0; 8]);
    add(PLAIN_TYPES[3], b"drft");
    add(SEALED, &[0, 3, 0, 8, 1, 1, 1, 0, 2, 2, 2, 2, 2, 2, 2, 2]);
    add(PLAIN_TYPES[4], &[0, 4, 0, 0]);
    add(PLAIN_TYPES[5], &[7; 8]);
    add(SEALED, &[0; 4]);
    add(COOKIE, b"cook");
    if version == 4 {
        bytes.extend([0x5A; 24]);
    }
    bytes
}
