//! Whether a list is the cut of a packet, which the port adds.
//!
//! The crate judges no lists. Its own iterator over the fields yields the cut, and
//! a list has to be equal to that.

use super::domain::Outside;
use super::line::Answer;
use super::read::packet_inside;
use crate::format::{Parsed, Words};
use crate::packet::extension_fields::ExtensionHeaderVersion;
use crate::packet::extension_fields::probe::{Refused, outer_fields};

pub fn judge(words: &mut Words) -> Parsed<Answer> {
    let version = words.version()?;
    let header = words.number()?;
    let packet = words.bytes()?;
    let lists = (words.numbers()?, words.numbers()?);
    words.end()?;
    Ok(judge_lists(version, header, &packet, lists).into())
}

/// Offsets in the packet, and the bytes taken there.
type Lists = (Vec<u64>, Vec<u64>);

fn judge_lists(
    version: ExtensionHeaderVersion,
    header: usize,
    packet: &[u8],
    lists: Lists,
) -> Result<Answer, Outside> {
    packet_inside(packet, header)?;
    let cut = cut(version, header, packet);
    Ok(Answer::Verdict(cut.is_ok_and(|cut| cut == lists)))
}

/// The cut. A field that the iterator refuses ends it, and then there is none.
fn cut(version: ExtensionHeaderVersion, header: usize, packet: &[u8]) -> Result<Lists, Refused> {
    outer_fields(&packet[header..], version)
        .map(|field| {
            let (offset, field) = field?;
            Ok(((header + offset) as u64, field.taken() as u64))
        })
        .collect()
}
