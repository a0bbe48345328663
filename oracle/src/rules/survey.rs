//! Section 7 of the rules.

use super::fields::{Frame, SEALED, Sealed, goes_on};
use super::{LONGEST, MOST_FIELDS, Refusal, Version, version};
use crate::format::{Parsed, Words, list};

/// A fault and its offset, or 0 and 0.
type Fault = (Refusal, usize);

pub fn survey(words: &mut Words) -> Parsed<String> {
    let version = version(words)?;
    let header = words.number()?;
    let packet = words.bytes()?;
    let mut entries = Vec::new();
    let (number, offset) = match walk(version, header, &packet, &mut entries) {
        Ok(()) => (0, 0),
        Err(fault) => fault,
    };
    Ok(format!("{number} {offset} {}", list(&entries)))
}

fn walk(
    version: Version,
    header: u64,
    packet: &[u8],
    entries: &mut Vec<String>,
) -> Result<(), Fault> {
    // Rules 3.1, 2.4 and 7.6.
    if packet.len() > LONGEST {
        return Err((7, 0));
    }
    if header > packet.len() as u64 {
        return Err((6, 0));
    }
    let mut at = header as usize;
    while goes_on(version, packet.len() - at) {
        let here = |number| (number, at);
        let frame = Frame::at_start_of(&packet[at..], version).map_err(here)?;
        // Rule 7.4: the contents of a plain field do not count.
        if frame.type_id == SEALED {
            let message = frame.message_of(&packet[at..]);
            let sealed = Sealed::of(message).map_err(here)?;
            // Rule 7.5.
            if entries.len() == MOST_FIELDS {
                return Err((8, at));
            }
            // Rule 7.2.
            entries.push(format!(
                "{}:{}:{}:{}:{at}",
                at + 4 + sealed.nonce_at,
                sealed.nonce,
                at + 4 + sealed.ciphertext_at,
                sealed.ciphertext
            ));
        }
        at += frame.taken;
    }
    Ok(())
}
