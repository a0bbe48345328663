//! Cases for reference id requests.

use super::output::{all_outputs, all_too_long, output};
use super::random::{Random, TOO_LONG};
use crate::format::hex;
use std::io::{Result, Write};

/// The length of the crate's Bloom filter.
pub const FILTER: usize = 512;

/// Numbers near the limits of 16 bits, at which sums start to wrap.
pub const LARGE: [usize; 12] = [
    1024, 32_768, 65_023, 65_024, 65_028, 65_527, 65_528, 65_531, 65_532, 65_533, 65_534, 65_535,
];

/// A payload length: a multiple of four mostly.
pub fn payload(random: &mut Random) -> usize {
    match random.below(12) {
        0..6 => 4 * random.between(1, 8),
        6 | 7 => 4 * random.below(130),
        8 => random.below(520),
        9 => 0,
        10 => random.below(65_536),
        _ => random.pick(&LARGE),
    }
}

/// An offset that goes with a payload: near the end of the filter, near the
/// wrap of 16 bits, or any.
pub fn offset(random: &mut Random, payload: usize) -> usize {
    match random.below(6) {
        0 => random.below(9),
        1 | 2 => random.below(FILTER + 8),
        3 => near(random, FILTER, payload),
        4 => near(random, 65_536, payload),
        _ => random.below(65_536),
    }
}

/// A number that makes about the limit, together with the payload.
fn near(random: &mut Random, limit: usize, payload: usize) -> usize {
    let about = (limit + random.below(5)).saturating_sub(payload + 2);
    about.min(65_535)
}

pub fn new(random: &mut Random) -> String {
    let payload = payload(random);
    format!("request-new {payload} {}", offset(random, payload))
}

/// Every payload up to 520 with every offset at which an answer can change, and
/// a grid of large numbers.
pub fn all_new(_: &mut Random, output: &mut dyn Write) -> Result<()> {
    for payload in 0..=520_usize {
        let filter_end = FILTER.saturating_sub(payload);
        let wrap = 65_536 - payload;
        let near_end = filter_end.saturating_sub(2)..=filter_end + 2;
        let near_wrap = wrap - 2..=65_535.min(wrap + 2);
        for offset in (0..5).chain(near_end).chain(near_wrap) {
            writeln!(output, "request-new {payload} {offset}")?;
        }
    }
    for payload in (0..9).chain(LARGE) {
        for offset in (0..9).chain(508..516).chain(LARGE) {
            writeln!(output, "request-new {payload} {offset}")?;
        }
    }
    Ok(())
}

pub fn read(random: &mut Random) -> String {
    let length = match random.below(2) {
        _ if random.one_in(50) => random.too_long(),
        0 => random.below(6),
        _ => random.length(),
    };
    format!("request-read {}", hex(&random.bytes(length)))
}

pub fn all_reads(random: &mut Random, output: &mut dyn Write) -> Result<()> {
    for length in (0..=64).chain([511, 512, 513, 65_531]).chain(TOO_LONG) {
        writeln!(output, "request-read {}", hex(&random.bytes(length)))?;
    }
    Ok(())
}

pub fn write(random: &mut Random) -> String {
    let payload = match random.below(20) {
        0 | 1 => payload(random),
        2 => random.pick(&[65_524, 65_528, 65_532]),
        _ => 4 * random.between(1, 24),
    };
    let offset = offset(random, payload);
    // Large requests need large outputs, so most of them get too small a one.
    let needed = match payload {
        0..1100 => payload + 4,
        _ if random.one_in(40) => payload + 4,
        _ => 16,
    };
    format!(
        "request-write {payload} {offset} {}",
        output(random, needed)
    )
}

pub fn all_writes(random: &mut Random, output: &mut dyn Write) -> Result<()> {
    for payload in (0..=64).chain([508, 512, 516]) {
        for start in [0, 1, 48] {
            for room in all_outputs(random, start, payload + 4) {
                let offset = random.below(65_536);
                writeln!(output, "request-write {payload} {offset} {room}")?;
            }
        }
    }
    for payload in [65_524, 65_528, 65_532] {
        for start in [0, 3] {
            let room = all_outputs(random, start, 65_532 - start).swap_remove(0);
            writeln!(output, "request-write {payload} 4 {room}")?;
        }
    }
    for room in all_too_long(random, 12) {
        writeln!(output, "request-write 8 4 {room}")?;
    }
    Ok(())
}
