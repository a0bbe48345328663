//! Cases for the MAC: half of them or more have a length that it may have, the
//! others lie around these.

use super::output::{all_outputs, all_too_long, output};
use super::random::{Random, TOO_LONG};
use crate::format::hex;
use std::io::{Result, Write};

pub fn read(random: &mut Random) -> String {
    let length = match random.below(8) {
        _ if random.one_in(50) => random.too_long(),
        0 => random.length(),
        1..4 => random.below(27),
        _ => random.pick(&[4, 20, 24]),
    };
    format!("mac-read {}", hex(&random.bytes(length)))
}

pub fn all_reads(random: &mut Random, output: &mut dyn Write) -> Result<()> {
    for length in (0..=40).chain(TOO_LONG) {
        writeln!(output, "mac-read {}", hex(&random.bytes(length)))?;
    }
    Ok(())
}

pub fn write(random: &mut Random) -> String {
    let length = match random.below(20) {
        0 => random.length(),
        1..8 => random.below(22),
        _ => random.pick(&[0, 16, 20]),
    };
    let body = random.bytes(length);
    let output = output(random, 4 + length);
    format!("mac-write {} {} {output}", keyid(random), hex(&body))
}

pub fn all_writes(random: &mut Random, output: &mut dyn Write) -> Result<()> {
    for length in 0..=24 {
        for start in 0..=4 {
            for room in all_outputs(random, start, 4 + length) {
                let body = hex(&random.bytes(length));
                writeln!(output, "mac-write {} {body} {room}", keyid(random))?;
            }
        }
    }
    for length in [65_535, 65_536] {
        let body = hex(&random.bytes(length));
        writeln!(output, "mac-write 1 {body} 0 -")?;
    }
    for room in all_too_long(random, 20) {
        let body = hex(&random.bytes(16));
        writeln!(output, "mac-write {} {body} {room}", keyid(random))?;
    }
    Ok(())
}

fn keyid(random: &mut Random) -> u32 {
    let any = random.next() as u32;
    random.pick(&[0, 1, 0x0102_0304, u32::MAX, any])
}
