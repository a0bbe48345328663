//! Cases for reference id responses.

use super::output::{all_outputs, all_too_long, output};
use super::random::{Random, TOO_LONG};
use super::requests::{FILTER, LARGE, offset, payload};
use crate::format::hex;
use std::io::{Result, Write};

pub fn new(random: &mut Random) -> String {
    let length = match random.below(8) {
        _ if random.one_in(50) => random.too_long(),
        0 => random.between(505, 520),
        _ => random.length(),
    };
    format!("response-new {}", hex(&random.bytes(length)))
}

pub fn all_new(random: &mut Random, output: &mut dyn Write) -> Result<()> {
    for length in (0..=520).chain([1024, 65_532]).chain(TOO_LONG) {
        writeln!(output, "response-new {}", hex(&random.bytes(length)))?;
    }
    Ok(())
}

pub fn cut(random: &mut Random) -> String {
    let payload = payload(random);
    let offset = offset(random, payload);
    let length = match random.below(20) {
        0 => random.between(505, 520),
        _ => FILTER,
    };
    let filter = hex(&random.bytes(length));
    format!("response-cut {payload} {offset} {filter}")
}

pub fn all_cuts(random: &mut Random, output: &mut dyn Write) -> Result<()> {
    let filter = hex(&random.bytes(FILTER));
    for offset in (0..5).chain(508..516).chain(LARGE) {
        let rest = FILTER.saturating_sub(offset);
        let near_end = rest.saturating_sub(2)..=rest + 2;
        for payload in (0..5).chain(near_end).chain(LARGE) {
            writeln!(output, "response-cut {payload} {offset} {filter}")?;
        }
    }
    for length in (0..=12).chain([511, 513, 1024]) {
        let filter = hex(&random.bytes(length));
        for offset in length.saturating_sub(4)..=length + 1 {
            for payload in 0..=5 {
                writeln!(output, "response-cut {payload} {offset} {filter}")?;
            }
        }
    }
    let filter = hex(&random.bytes(66_000));
    for payload in [0, 1, 465, 466] {
        writeln!(output, "response-cut {payload} 65535 {filter}")?;
    }
    Ok(())
}

pub fn read(random: &mut Random) -> String {
    let length = match random.one_in(50) {
        true => random.too_long(),
        false => random.length(),
    };
    format!("response-read {}", hex(&random.bytes(length)))
}

pub fn all_reads(random: &mut Random, output: &mut dyn Write) -> Result<()> {
    for length in (0..=64).chain([511, 512, 513, 65_531]).chain(TOO_LONG) {
        writeln!(output, "response-read {}", hex(&random.bytes(length)))?;
    }
    Ok(())
}

pub fn write(random: &mut Random) -> String {
    let length = random.length();
    let bytes = hex(&random.bytes(length));
    let needed = 4 + length.next_multiple_of(4);
    format!("response-write {bytes} {}", output(random, needed))
}

pub fn all_writes(random: &mut Random, output: &mut dyn Write) -> Result<()> {
    for length in (0..=40_usize).chain(508..=516) {
        for start in [0, 1, 48] {
            for room in all_outputs(random, start, 4 + length.next_multiple_of(4)) {
                let bytes = hex(&random.bytes(length));
                writeln!(output, "response-write {bytes} {room}")?;
            }
        }
    }
    for length in 65_527..=65_536 {
        let room = all_outputs(random, 0, 65_535).swap_remove(0);
        let bytes = hex(&random.bytes(length));
        writeln!(output, "response-write {bytes} {room}")?;
    }
    for room in all_too_long(random, 12) {
        let bytes = hex(&random.bytes(7));
        writeln!(output, "response-write {bytes} {room}")?;
    }
    Ok(())
}
