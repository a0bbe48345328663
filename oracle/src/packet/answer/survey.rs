//! The survey of a packet's sealed fields, which the port adds.
//!
//! The crate has no function for it: the answer is put together from its
//! iterator over the fields and its reading of a sealed field's lengths.

use super::domain::{MOST_FIELDS, Outside, inside};
use super::line::Answer;
use super::numbers;
use super::read::packet_inside;
use crate::format::{self, Parsed, Words};
use crate::packet::extension_fields::ExtensionHeaderVersion;
use crate::packet::extension_fields::probe::{Framed, Refused, Sealed, outer_fields};

pub fn survey(words: &mut Words) -> Parsed<Answer> {
    let version = words.version()?;
    let header = words.number()?;
    let packet = words.bytes()?;
    words.end()?;
    Ok(survey_packet(version, header, &packet).into())
}

fn survey_packet(
    version: ExtensionHeaderVersion,
    header: usize,
    packet: &[u8],
) -> Result<Answer, Outside> {
    packet_inside(packet, header)?;
    let mut entries = Vec::new();
    // Where the next field starts, which is the one at fault if there is a fault.
    let mut end = header;
    for field in outer_fields(&packet[header..], version) {
        match surveyed(field) {
            Ok((offset, field, sealed)) => {
                let before = header + offset;
                entries.extend(sealed.map(|sealed| entry(packet, &sealed, before)));
                inside(entries.len() <= MOST_FIELDS, Outside::TooManyFields)?;
                end = before + field.taken();
            }
            Err(refused) => {
                let number = numbers::number(&refused);
                return Ok(answer(number, end, &entries));
            }
        }
    }
    Ok(answer(0, 0, &entries))
}

fn answer(number: u16, offset: usize, entries: &[String]) -> Answer {
    Answer::with(number, format_args!("{offset} {}", format::list(entries)))
}

/// A field with its offset, and its parts if it is a sealed one.
fn surveyed<'a>(
    field: Result<(usize, Framed<'a>), Refused>,
) -> Result<(usize, Framed<'a>, Option<Sealed<'a>>), Refused> {
    let (offset, field) = field?;
    let sealed = field.is_sealed().then(|| field.sealed_parts());
    Ok((offset, field, sealed.transpose()?))
}

/// The places of nonce and ciphertext are where the crate's slices point to.
fn entry(packet: &[u8], sealed: &Sealed, before: usize) -> String {
    let place = |part: &[u8]| part.as_ptr().addr() - packet.as_ptr().addr();
    let Sealed { nonce, ciphertext } = sealed;
    format!(
        "{}:{}:{}:{}:{before}",
        place(nonce),
        nonce.len(),
        place(ciphertext),
        ciphertext.len()
    )
}
