//! The chain of fields: where each item of a reply lies.
//!
//! The crate's reader keeps no offsets, so they are rebuilt here. The crate's
//! own iterator yields the fields with their places, and its own steps say at
//! which field they refuse. Nothing here decides an answer: `read` takes the
//! answer from the crate's reader, and holds this chain to it and to every
//! pointer that survives in its reply.

use super::case::Case;
use super::domain::{MOST_FIELDS, Outside, inside};
use super::numbers;
use super::script::LentResult;
use crate::packet::error::ParsingError;
use crate::packet::extension_fields::ExtensionHeaderVersion;
use crate::packet::extension_fields::probe::{Framed, Refused, inner_fields, outer_fields};

/// The numbers of a field: its type, where it lies in the packet or in the lent
/// plaintext buffer, its message length and the bytes that it takes.
pub struct Place {
    pub type_id: u16,
    pub offset: usize,
    pub message: usize,
    pub taken: usize,
}

impl Place {
    fn of(field: &Framed, offset: usize) -> Self {
        Self {
            type_id: field.type_id(),
            offset,
            message: field.message().len(),
            taken: field.taken(),
        }
    }

    /// The message that lies there, if a header with these numbers is before it.
    pub fn message_in<'b>(&self, buffer: &'b [u8]) -> Option<&'b [u8]> {
        let length = u16::try_from(4 + self.message).ok()?;
        let header = [self.type_id.to_be_bytes(), length.to_be_bytes()].concat();
        let rest = buffer.get(self.offset..)?.strip_prefix(&header[..])?;
        rest.get(..self.message)
    }
}

/// The items of a packet in wire order, up to its end or its first fault.
#[derive(Default)]
pub struct Chain {
    /// Plain fields and sealed fields that were not opened.
    pub outer: Vec<Place>,
    /// The fields of opened plaintexts.
    pub inner: Vec<Place>,
    /// The bytes before each sealed field that is handed to a cipher.
    pub associated: Vec<usize>,
    /// Where the field after the last one starts, or the remainder.
    pub end: usize,
    /// The number of the fault of the field at `end`, if one ended the walk.
    pub fault: Option<u16>,
}

/// Why the walk stops before the packet's end.
enum Stop {
    Fault(u16),
    Outside(Outside),
}

impl From<Outside> for Stop {
    fn from(reason: Outside) -> Self {
        Self::Outside(reason)
    }
}

impl From<Refused> for Stop {
    fn from(refused: Refused) -> Self {
        Self::Fault(numbers::number(&refused))
    }
}

/// Follows the chain of a packet whose header lies inside it.
pub fn follow(case: &Case) -> Result<Chain, Outside> {
    let mut chain = Chain {
        end: case.header,
        ..Chain::default()
    };
    let mut results = case.results.iter();
    for field in outer_fields(&case.packet[case.header..], case.version) {
        match chain.take(case, field, &mut results) {
            Ok(()) => {}
            Err(Stop::Outside(reason)) => return Err(reason),
            Err(Stop::Fault(number)) => {
                chain.fault = Some(number);
                break;
            }
        }
    }
    Ok(chain)
}

impl Chain {
    /// Takes an outer field: its frame, then what is in it.
    fn take<'r>(
        &mut self,
        case: &Case,
        field: Result<(usize, Framed), Refused>,
        results: &mut impl Iterator<Item = &'r LentResult>,
    ) -> Result<(), Stop> {
        let (offset, field) = field?;
        let place = Place::of(&field, case.header + offset);
        let end = place.offset + place.taken;
        if field.is_sealed() {
            self.take_sealed(case, &field, place, results)?;
        } else {
            field.decode()?;
            add(&mut self.outer, place)?;
        }
        self.end = end;
        Ok(())
    }

    /// Takes a sealed field: the lengths in it, then its result.
    fn take_sealed<'r>(
        &mut self,
        case: &Case,
        field: &Framed,
        place: Place,
        results: &mut impl Iterator<Item = &'r LentResult>,
    ) -> Result<(), Stop> {
        let ciphertext = field.sealed_parts()?.ciphertext;
        let result = results.next().ok_or(Outside::ResultMissing)?;
        if result.has_cipher() {
            self.associated.push(place.offset);
        }
        match result.verdict {
            LentResult::NO_KEY | LentResult::FAILED => add(&mut self.outer, place),
            LentResult::OPENED | LentResult::OPENED_BY_COOKIE => {
                let lent = result.plaintext(&case.plain);
                let plaintext = lent.ok_or(Outside::ResultIllFormed)?;
                let shorter = ciphertext.len() < plaintext.len();
                inside(!shorter, Outside::CiphertextShorter)?;
                self.take_opened(plaintext, result.start as usize, case.version)
            }
            _ => Err(Outside::ResultIllFormed.into()),
        }
    }

    /// Takes the fields of a plaintext that starts at some place of its buffer.
    fn take_opened(
        &mut self,
        plaintext: &[u8],
        start: usize,
        version: ExtensionHeaderVersion,
    ) -> Result<(), Stop> {
        for field in inner_fields(plaintext, version) {
            let (offset, field) = field?;
            if field.is_sealed() {
                return Err(Refused::from(ParsingError::MalformedNtsExtensionFields).into());
            }
            field.decode()?;
            add(&mut self.inner, Place::of(&field, start + offset))?;
        }
        Ok(())
    }
}

/// Adds an item to a list, if it has room.
fn add(list: &mut Vec<Place>, place: Place) -> Result<(), Stop> {
    inside(list.len() < MOST_FIELDS, Outside::TooManyFields)?;
    list.push(place);
    Ok(())
}
