//! Section 25 of the rules.

use super::fields::{Frame, goes_on};
use super::{LONGEST, Refusal, Version, version};
use crate::format::{Parsed, Words};

/// Where each field of a packet begins, and how many bytes it takes.
#[derive(Default, PartialEq)]
struct Cut {
    offsets: Vec<u64>,
    lengths: Vec<u64>,
}

pub fn judge(words: &mut Words) -> Parsed<String> {
    let version = version(words)?;
    let header = words.number()?;
    let packet = words.bytes()?;
    let proposed = Cut {
        offsets: words.numbers()?,
        lengths: words.numbers()?,
    };
    let answer = match cut(version, header, &packet) {
        Ok(cut) if cut == proposed => "yes",
        _ => "no",
    };
    Ok(answer.to_string())
}

/// The cut of a packet, if it has one. Frames alone decide: neither contents nor
/// the number of fields matter.
fn cut(version: Version, header: u64, packet: &[u8]) -> Result<Cut, Refusal> {
    if packet.len() > LONGEST {
        return Err(7);
    }
    if header > packet.len() as u64 {
        return Err(6);
    }
    let mut cut = Cut::default();
    let mut rest = &packet[header as usize..];
    while goes_on(version, rest.len()) {
        let frame = Frame::at_start_of(rest, version)?;
        cut.offsets.push((packet.len() - rest.len()) as u64);
        cut.lengths.push(frame.taken as u64);
        rest = &rest[frame.taken..];
    }
    Ok(cut)
}
