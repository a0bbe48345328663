//! Cases for the NTPv5 header.

use super::output::{all_outputs, all_too_long, output};
use super::random::Random;
use crate::format::hex;
use std::io::{Result, Write};

/// The length of a header.
pub const LENGTH: usize = 48;

/// A header that reads with answer 0, of random contents.
fn good(random: &mut Random) -> Vec<u8> {
    let mut header = random.bytes(LENGTH);
    header[0] = random.pick(&[0, 1, 2, 3]) << 6 | 5 << 3 | random.pick(&[3, 4]);
    header[12] &= 3;
    header[14] = 0;
    header[15] &= 7;
    header
}

pub fn read(random: &mut Random) -> String {
    let mut header = good(random);
    if random.one_in(3) {
        let place = random.pick(&[0, 0, 12, 14, 15]);
        header[place] = random.byte();
    }
    change_length(random, &mut header);
    format!("header5-read {}", hex(&header))
}

/// Now and then puts bytes behind a header, or cuts it off.
pub fn change_length(random: &mut Random, header: &mut Vec<u8>) {
    match random.below(12) {
        0 => header.truncate(random.below(LENGTH + 1)),
        1 => header.extend(random.bytes(1)),
        2 => {
            let more = random.length();
            header.extend(random.bytes(more));
        }
        _ => {}
    }
}

/// The places of the bytes that are judged, two at a time.
const JUDGED: [[usize; 2]; 6] = [[0, 12], [0, 14], [0, 15], [12, 14], [12, 15], [14, 15]];

/// All values of two of the bytes that are judged, and all lengths.
pub fn all_reads(random: &mut Random, output: &mut dyn Write) -> Result<()> {
    for length in (0..=LENGTH + 2).chain([65_535, 65_536, 70_000]) {
        let mut header = good(random);
        header.extend(random.bytes(length));
        header.truncate(length);
        writeln!(output, "header5-read {}", hex(&header))?;
    }
    for [first, second] in JUDGED {
        for values in 0..=u16::MAX {
            let mut header = good(random);
            [header[first], header[second]] = values.to_be_bytes();
            writeln!(output, "header5-read {}", hex(&header))?;
        }
    }
    Ok(())
}

pub fn write(random: &mut Random) -> String {
    let room = output(random, LENGTH);
    let leap = random.pick(&LEAPS);
    let flags = random.below(8);
    let mode = random.pick(&[3, 4]);
    let timescale = random.below(4);
    format!(
        "header5-write {room} {}",
        header(random, leap, [mode, timescale, flags])
    )
}

/// Every combination of the small fields, and every room up to a whole header.
pub fn all_writes(random: &mut Random, output: &mut dyn Write) -> Result<()> {
    for leap in LEAPS {
        for mode in [3, 4] {
            for timescale in 0..4 {
                for flags in 0..8 {
                    let room = &all_outputs(random, 0, LENGTH)[0];
                    let header = header(random, leap, [mode, timescale, flags]);
                    writeln!(output, "header5-write {room} {header}")?;
                }
            }
        }
    }
    for start in 0..=LENGTH + 2 {
        for room in all_outputs(random, start, LENGTH) {
            let header = header(random, "unknown", [4, 1, 5]);
            writeln!(output, "header5-write {room} {header}")?;
        }
    }
    for room in all_too_long(random, LENGTH) {
        let header = header(random, "1", [3, 2, 7]);
        writeln!(output, "header5-write {room} {header}")?;
    }
    Ok(())
}

const LEAPS: [&str; 5] = ["0", "1", "2", "unknown", "unsynchronized"];

/// The sixteen words of a header.
fn header(random: &mut Random, leap: &str, [mode, timescale, flags]: [usize; 3]) -> String {
    let [stratum, poll, era] = [0; 3].map(|_: u8| random.byte());
    let precision = random.byte() as i8;
    let [delay, dispersion] = [0; 2].map(|_: u8| random.next() as u32);
    let flags = format!("{} {} {}", flags & 1, flags >> 1 & 1, flags >> 2);
    let times = [0; 4].map(|_: u8| wide(random).to_string()).join(" ");
    format!(
        "{leap} {mode} {stratum} {poll} {precision} {delay} {dispersion} {timescale} {era} {flags} {times}"
    )
}

/// A number of 64 bits, now and then an extreme one.
pub fn wide(random: &mut Random) -> u64 {
    let any = random.next();
    random.pick(&[any, any, any, any, 0, 1, 1 << 63, u64::MAX])
}
