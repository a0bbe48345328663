//! Cases for the header of NTPv3 and NTPv4.

use super::header5::{LENGTH, change_length, wide};
use super::output::{all_outputs, all_too_long, output};
use super::random::Random;
use crate::format::hex;
use std::io::{Result, Write};

/// Bytes of a header, with this version in the first of them.
fn of_version(version: u8, mut header: Vec<u8>) -> Vec<u8> {
    if let Some(first) = header.first_mut() {
        *first = (*first & 0xC7) | (version << 3);
    }
    header
}

pub fn read(random: &mut Random) -> String {
    let version = random.pick(&[3, 4]);
    let mut header = of_version(version, random.bytes(LENGTH));
    if random.one_in(4) {
        header[0] = random.byte();
    }
    change_length(random, &mut header);
    format!("header34-read {}", hex(&header))
}

/// All lengths of every version, contents of extreme numbers, and all values of the
/// first two bytes.
pub fn all_reads(random: &mut Random, output: &mut dyn Write) -> Result<()> {
    for length in 0..=LENGTH + 2 {
        for version in 0..8 {
            let header = of_version(version, random.bytes(length));
            writeln!(output, "header34-read {}", hex(&header))?;
        }
    }
    for version in [3, 4] {
        for length in [65_535, 65_536, 70_000] {
            let header = of_version(version, random.bytes(length));
            writeln!(output, "header34-read {}", hex(&header))?;
        }
        for byte in [0x00, 0x7F, 0x80, 0xFF] {
            let header = of_version(version, vec![byte; LENGTH]);
            writeln!(output, "header34-read {}", hex(&header))?;
        }
    }
    for values in 0..=u16::MAX {
        let mut header = random.bytes(LENGTH);
        [header[0], header[1]] = values.to_be_bytes();
        writeln!(output, "header34-read {}", hex(&header))?;
    }
    Ok(())
}

pub fn write(random: &mut Random) -> String {
    let room = output(random, LENGTH);
    let mut first = [
        random.below(4) as u8,
        random.pick(&[3, 4]),
        random.below(8) as u8,
    ];
    if random.one_in(6) {
        let any = random.byte();
        first[random.below(3)] = random.pick(&[0, 2, 3, 4, 5, 7, 8, any]);
    }
    format!("header34-write {room} {}", header(random, first))
}

/// Every leap, version and mode, and the first that are none, with the room that
/// is needed and with a byte less; every room up to a whole header.
pub fn all_writes(random: &mut Random, output: &mut dyn Write) -> Result<()> {
    for leap in (0..=4).chain([255]) {
        for version in (0..=8).chain([255]) {
            for mode in (0..=8).chain([255]) {
                for room in &all_outputs(random, 0, LENGTH)[..2] {
                    let header = header(random, [leap, version, mode]);
                    writeln!(output, "header34-write {room} {header}")?;
                }
            }
        }
    }
    for start in 0..=LENGTH + 2 {
        for room in all_outputs(random, start, LENGTH) {
            let header = header(random, [3, 4, 4]);
            writeln!(output, "header34-write {room} {header}")?;
        }
    }
    for first in [[1, 3, 7], [1, 3, 8]] {
        for room in all_too_long(random, LENGTH) {
            let header = header(random, first);
            writeln!(output, "header34-write {room} {header}")?;
        }
    }
    Ok(())
}

/// The thirteen words of a header.
fn header(random: &mut Random, [leap, version, mode]: [u8; 3]) -> String {
    let [stratum, poll] = [0; 2].map(|_: u8| random.byte());
    let precision = random.byte() as i8;
    let narrow = [0; 3].map(|_: u8| narrow(random).to_string()).join(" ");
    let times = [0; 4].map(|_: u8| wide(random).to_string()).join(" ");
    format!("{leap} {version} {mode} {stratum} {poll} {precision} {narrow} {times}")
}

/// A number of 32 bits, now and then an extreme one.
fn narrow(random: &mut Random) -> u32 {
    let any = random.next() as u32;
    random.pick(&[any, any, any, any, 0, 1, 1 << 31, u32::MAX])
}
