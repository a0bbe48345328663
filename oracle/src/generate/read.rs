//! Cases for the reader and the survey.

use super::packets::{Packet, Sealing, packet};
use super::random::Random;
use super::regions;
use crate::format::{hex, list};
use crate::packet::answer::domain::MOST_FIELDS;
use std::io::{Result, Write};

pub fn read(random: &mut Random) -> String {
    let packet = packet(random);
    let (results, plain) = lend(random, &packet.sealings);
    read_line(&packet, &results, &plain)
}

pub fn survey(random: &mut Random) -> String {
    survey_line(&packet(random))
}

fn read_line(packet: &Packet, results: &[[u64; 3]], plain: &[u8]) -> String {
    let result = |[verdict, start, length]: &[u64; 3]| format!("{verdict}:{start}:{length}");
    let results: Vec<String> = results.iter().map(result).collect();
    let (version, header) = (packet.version, packet.header);
    let (bytes, results, plain) = (hex(&packet.bytes), list(&results), hex(plain));
    format!("read {version} {header} {bytes} {results} {plain}")
}

fn survey_line(packet: &Packet) -> String {
    let (version, header) = (packet.version, packet.header);
    format!("survey {version} {header} {}", hex(&packet.bytes))
}

/// The results that a host lends, and the buffer with the plaintexts. In one
/// packet of three there may be bytes between the plaintexts that belong to none.
fn lend(random: &mut Random, sealings: &[Sealing]) -> (Vec<[u64; 3]>, Vec<u8>) {
    let mut plain = Vec::new();
    let mut results = Vec::new();
    let has_gaps = random.one_in(3);
    for sealing in sealings {
        if has_gaps && random.one_in(2) {
            plain.extend([0xEE; 3]);
        }
        let place = match sealing.verdict {
            0 | 1 if random.one_in(4) => [random.next() >> random.below(64), random.next()],
            0 | 1 => [0, 0],
            _ => [plain.len() as u64, sealing.plaintext.len() as u64],
        };
        if sealing.verdict > 1 {
            plain.extend(&sealing.plaintext);
        }
        results.push([sealing.verdict, place[0], place[1]]);
    }
    match random.below(60) {
        0 => drop(results.pop()),
        1 => spoil(random, &mut results, plain.len() as u64),
        2..8 => results.push([random.below(6) as u64, random.next(), 1]),
        _ => {}
    }
    (results, plain)
}

/// Makes one result ill formed, or takes it to the buffer's very end.
fn spoil(random: &mut Random, results: &mut [[u64; 3]], end: u64) {
    if results.is_empty() {
        return;
    }
    let place = random.below(results.len());
    results[place] = match random.below(6) {
        0 => [4, 0, 0],
        1 => [255, 0, 0],
        2 => [2, end, 0],
        3 => [3, end + 1, 0],
        4 => [2, end, 1],
        _ => [2, u64::MAX, 1],
    };
}

/// Every short region of the alphabet, single fields of every length, sealed
/// fields of every inner length, tables and sizes at their limits, one good
/// packet with every kind of damage at every place, fields whose bytes are all
/// looked at, and results at the edges of what is well formed.
pub fn all_reads(random: &mut Random, output: &mut dyn Write) -> Result<()> {
    let mut write = |packet: &Packet| {
        let (results, plain) = lend_plainly(&packet.sealings);
        writeln!(output, "{}", read_line(packet, &results, &plain))
    };
    regions::sequences(&regions::letters(), &mut write)?;
    regions::single_fields(&mut write)?;
    regions::inner_lengths(&mut write)?;
    regions::table_limits(&mut write)?;
    regions::sizes(&mut write)?;
    regions::damaged(random, &mut write)?;
    regions::scanned(&mut write)?;
    for result in ILL_FORMED {
        let packet = v5(&[4, 4, 0, 12, 0, 0, 0, 4, 1, 4, 0, 4]);
        writeln!(output, "{}", read_line(&packet, &[result], &[1, 4, 0, 4]))?;
    }
    long_plaintexts(output)?;
    missing_results(output)?;
    longest_inner_fields(output)
}

/// A V5 packet without header.
fn v5(bytes: &[u8]) -> Packet {
    Packet {
        version: 5,
        header: 0,
        bytes: bytes.to_vec(),
        sealings: Vec::new(),
    }
}

/// Plaintexts around the longest that there is, of a buffer that holds a field
/// of 65,532 bytes and two of four.
fn long_plaintexts(output: &mut dyn Write) -> Result<()> {
    let mut plain = vec![0; 65_540];
    plain[2..4].copy_from_slice(&[0xFF, 0xFC]);
    plain[65_535] = 4;
    plain[65_539] = 4;
    let packet = v5(&[4, 4, 0, 8, 0, 0, 0, 0]);
    for (start, length) in [
        (0, 65_532),
        (0, 65_535),
        (0, 65_536),
        (0, 65_540),
        (0, 65_541),
        (4, 65_535),
        (4, 65_536),
        (5, 65_536),
        (65_532, 8),
        (65_536, 4),
    ] {
        for verdict in [1, 2] {
            let result = [verdict, start, length];
            writeln!(output, "{}", read_line(&packet, &[result], &plain))?;
        }
    }
    Ok(())
}

/// As many inner fields as the table holds, each the longest that there is, since
/// all sealed fields name one plaintext: an answer that is far longer than its
/// case. And one field more.
fn longest_inner_fields(output: &mut dyn Write) -> Result<()> {
    let mut plain: Vec<u8> = (0..65_532).map(|place| (place % 251) as u8).collect();
    plain[..4].copy_from_slice(&[2, 4, 0xFF, 0xFC]);
    for sealed in [MOST_FIELDS, MOST_FIELDS + 1] {
        let packet = v5(&[4, 4, 0, 8, 0, 0, 0, 0].repeat(sealed));
        let results = vec![[2, 0, 65_532]; sealed];
        writeln!(output, "{}", read_line(&packet, &results, &plain))?;
    }
    Ok(())
}

/// Up to four sealed fields after a plain one, with every smaller number of
/// results of every verdict.
fn missing_results(output: &mut dyn Write) -> Result<()> {
    for sealed in 1..=4 {
        let seals = [4, 4, 0, 8, 0, 0, 0, 0].repeat(sealed);
        for lent in 0..sealed {
            for verdict in 0..=4 {
                let mut packet = v5(&[&[1, 4, 0, 4], &seals[..]].concat());
                let results = vec![[verdict, 0, 0]; lent];
                writeln!(output, "{}", read_line(&packet, &results, &[]))?;
                packet.version = 4;
                packet.bytes.extend([0x5A; 24]);
                writeln!(output, "{}", read_line(&packet, &results, &[]))?;
            }
        }
    }
    Ok(())
}

/// Results at the edges of what is well formed, for a buffer of four bytes.
const ILL_FORMED: [[u64; 3]; 12] = [
    [2, 0, 4],
    [2, 4, 0],
    [2, 5, 0],
    [2, 0, 5],
    [2, 1, 4],
    [3, u64::MAX, 1],
    [2, u64::MAX, 0],
    [2, 4, u64::MAX],
    [4, 0, 4],
    [256, 0, 4],
    [1, 5, 5],
    [0, u64::MAX, u64::MAX],
];

pub fn all_surveys(random: &mut Random, output: &mut dyn Write) -> Result<()> {
    let mut write = |packet: &Packet| writeln!(output, "{}", survey_line(packet));
    regions::sequences(&regions::letters_but_for_results(), &mut write)?;
    regions::single_fields(&mut write)?;
    regions::inner_lengths(&mut write)?;
    regions::table_limits(&mut write)?;
    regions::sizes(&mut write)?;
    regions::damaged(random, &mut write)
}

/// The results for a packet, with the plaintexts one after another.
fn lend_plainly(sealings: &[Sealing]) -> (Vec<[u64; 3]>, Vec<u8>) {
    let mut plain = Vec::new();
    let mut results = Vec::new();
    for sealing in sealings {
        let place = [plain.len() as u64, sealing.plaintext.len() as u64];
        results.push([sealing.verdict, place[0], place[1]]);
        plain.extend(&sealing.plaintext);
    }
    (results, plain)
}
