//! The reader of a packet's extension fields.

use super::case::Case;
use super::chain::{Chain, follow};
use super::domain::{LONGEST, Outside, inside};
use super::line::Answer;
use super::lists::{Disagreement, agree, lists};
use super::numbers::{self, DECRYPT_ERROR};
use super::script::Openers;
use crate::format::{Parsed, Words};
use crate::packet::error::ParsingError;
use crate::packet::extension_fields::{ExtensionFieldData, ExtensionHeaderVersion};
use crate::packet::mac::Mac;

pub fn read(words: &mut Words) -> Parsed<Answer> {
    let case = Case::read(words)?;
    words.end()?;
    Ok(read_packet(&case).into())
}

fn read_packet(case: &Case) -> Result<Answer, Outside> {
    packet_inside(&case.packet, case.header)?;
    let chain = follow(case)?;
    let answer = answer_with(case, &chain);
    Ok(answer.unwrap_or(Answer::Panic("panic offset")))
}

/// The added refusals 7 and 6.
pub fn packet_inside(packet: &[u8], header: usize) -> Result<(), Outside> {
    inside(packet.len() <= LONGEST, Outside::PacketTooLong)?;
    inside(header <= packet.len(), Outside::HeaderPastEnd)
}

/// Lets the crate read the packet, and adds the offsets to its answer.
fn answer_with(case: &Case, chain: &Chain) -> Result<Answer, Disagreement> {
    let openers = Openers::new(&case.results, &case.plain);
    let reply = ExtensionFieldData::deserialize(&case.packet, case.header, &openers, case.version);
    check_associated(case, chain, &openers)?;
    match reply {
        Ok(reply) => {
            let lists = lists(case, chain, &reply.efdata, reply.remaining_bytes)?;
            let cookie = reply.cookie.map(|cookie| cookie.sealed_field.to_string());
            let cookie = cookie.unwrap_or("-".to_string());
            Ok(Answer::accepted(format_args!("{lists} {cookie}")))
        }
        Err(ParsingError::DecryptError(reply)) => {
            let lists = lists(case, chain, &reply.efdata, reply.remaining_bytes)?;
            Ok(Answer::with(DECRYPT_ERROR, format_args!("{lists} -")))
        }
        Err(refusal) => {
            let number = numbers::number(&refusal);
            agree(chain.fault == Some(number))?;
            check_before_fault(case, chain)?;
            Ok(Answer::with(number, chain.end))
        }
    }
}

/// Each cipher was handed the packet's bytes up to the field it had to open.
fn check_associated(case: &Case, chain: &Chain, openers: &Openers) -> Result<(), Disagreement> {
    let packet = case.packet.as_ptr().addr();
    let expected = chain.associated.iter().map(|before| (packet, *before));
    agree(expected.eq(openers.handed()))
}

/// The packet cut off where the fault is has none, and reads to its end. In V4
/// the last 24 bytes are never read, so that as many stand for what was cut.
fn check_before_fault(case: &Case, chain: &Chain) -> Result<(), Disagreement> {
    let rest = match case.version {
        ExtensionHeaderVersion::V4 => Mac::MAXIMUM_SIZE,
        ExtensionHeaderVersion::V5 => 0,
    };
    let mut cut = case.packet[..chain.end].to_vec();
    cut.resize(chain.end + rest, 0);
    let openers = Openers::new(&case.results, &case.plain);
    let reply = ExtensionFieldData::deserialize(&cut, case.header, &openers, case.version);
    let remainder = match reply {
        Ok(reply) => reply.remaining_bytes,
        Err(ParsingError::DecryptError(reply)) => reply.remaining_bytes,
        Err(_) => return Err(Disagreement),
    };
    agree(remainder.len() == rest)
}
