//! Cases for the leaves of the reader.

use super::fields::type_id;
use super::packets::packet;
use super::random::Random;
use crate::format::hex;
use std::io::{Result, Write};

pub fn round(random: &mut Random) -> String {
    let number = match random.below(3) {
        0 => random.below(40),
        1 => random.between(65_500, 65_535),
        _ => random.below(65_536),
    };
    format!("round {number}")
}

pub fn all_rounds(_: &mut Random, output: &mut dyn Write) -> Result<()> {
    for number in 0..=65_535 {
        writeln!(output, "round {number}")?;
    }
    Ok(())
}

pub fn kind(random: &mut Random) -> String {
    format!("kind {} {}", random.version(), type_id(random))
}

pub fn all_kinds(_: &mut Random, output: &mut dyn Write) -> Result<()> {
    for version in [4, 5] {
        for type_id in 0..=65_535 {
            writeln!(output, "kind {version} {type_id}")?;
        }
    }
    Ok(())
}

/// The frame at some place of a packet: where its fields start, or anywhere.
pub fn frame(random: &mut Random) -> String {
    let packet = packet(random);
    let length = packet.bytes.len() as u64;
    let at = match random.below(8) {
        0..5 => packet.header as u64,
        5 => random.next() % (length + 1),
        6 => length + random.pick(&[0, 1, 2, 3, 4, 65_536]),
        _ => length.saturating_sub(random.pick(&[1, 2, 3, 4, 5, 8])),
    };
    let at = if random.one_in(200) { u64::MAX } else { at };
    format!("frame {} {at} {}", packet.version, hex(&packet.bytes))
}

/// Every stated length up to 40 over every number of bytes up to 44, the longest
/// lengths over nearly as many bytes as they ask for, and over more than a packet
/// has.
pub fn all_frames(random: &mut Random, output: &mut dyn Write) -> Result<()> {
    for version in [4, 5] {
        for at in [0, 3] {
            for stated in 0..=40 {
                for present in 0..=44 {
                    write_frame(random, output, [version, at], stated, present)?;
                }
            }
        }
        for stated in [65_528, 65_531, 65_532, 65_533, 65_535] {
            for present in [65_531, 65_532, 65_535, 65_536, 65_540] {
                write_frame(random, output, [version, 0], stated, present)?;
            }
        }
        let long = hex(&[0, 0, 0, 4].repeat(16_390));
        for at in [65_532, 65_536, 65_556, 65_557, 65_560, 65_561] {
            writeln!(output, "frame {version} {at} {long}")?;
        }
    }
    Ok(())
}

/// A field that states a length, of which so many bytes are present after some
/// bytes that are not its own.
fn write_frame(
    random: &mut Random,
    output: &mut dyn Write,
    [version, at]: [u8; 2],
    stated: u16,
    present: usize,
) -> Result<()> {
    let mut field = type_id(random).to_be_bytes().to_vec();
    field.extend(stated.to_be_bytes());
    field.extend(random.bytes(present));
    field.truncate(present);
    let before = random.bytes(at.into());
    let bytes = [before, field].concat();
    writeln!(output, "frame {version} {at} {}", hex(&bytes))
}
