//! The MAC at a packet's end.

use super::domain::{LONGEST, MAC_BODY_LENGTHS, MAC_LENGTHS, Outside, inside};
use super::line::Answer;
use super::numbers;
use super::output::{self, Output};
use crate::format::{Parsed, Words, hex};
use crate::packet::mac::{Mac, probe};

pub fn read(words: &mut Words) -> Parsed<Answer> {
    let bytes = words.bytes()?;
    words.end()?;
    Ok(read_bytes(&bytes).into())
}

fn read_bytes(bytes: &[u8]) -> Result<Answer, Outside> {
    inside(bytes.len() <= LONGEST, Outside::MessageTooLong)?;
    inside(is_read_alike(bytes.len()), Outside::MacLength)?;
    Ok(match Mac::deserialize(bytes) {
        Ok(mac) => {
            let (keyid, body) = probe::parts(&mac);
            Answer::accepted(format_args!("{keyid} {}", hex(body)))
        }
        Err(refused) => numbers::refusal(&refused),
    })
}

/// A MAC that the rules and the Rust both read, or both refuse.
fn is_read_alike(len: usize) -> bool {
    let [shortest, _, longest] = MAC_LENGTHS;
    MAC_LENGTHS.contains(&len) || len < shortest || longest < len
}

pub fn write(words: &mut Words) -> Parsed<Answer> {
    let keyid = words.number()?;
    let body = words.bytes()?;
    let output = Output::read(words)?;
    words.end()?;
    Ok(write_mac(keyid, &body, output).into())
}

fn write_mac(keyid: u32, body: &[u8], output: Output) -> Result<Answer, Outside> {
    inside(MAC_BODY_LENGTHS.contains(&body.len()), Outside::MacLength)?;
    output.inside_limits()?;
    let mac = probe::make(keyid, body);
    Ok(output::answer(output.write(|cursor| mac.serialize(cursor))))
}
