//! Opens the private steps of the reader to the driver: the rounding, the frame
//! of one field, the chain of fields, the lengths inside a sealed field and the
//! decoding of a field's contents. Every function hands on to the crate's own.

use super::{
    ExtensionField, ExtensionFieldTypeId, ExtensionHeaderVersion, Mac, RawEncryptedField,
    RawExtensionField, next_multiple_of_usize,
};
use crate::packet::error::ParsingError;
use std::convert::Infallible;

/// Why one of the crate's steps refuses.
pub type Refused = ParsingError<Infallible>;

/// A number rounded up to a multiple of four.
pub fn round(number: usize) -> usize {
    next_multiple_of_usize(number, 4)
}

/// A field whose frame is sound.
pub struct Framed<'a> {
    raw: RawExtensionField<'a>,
    version: ExtensionHeaderVersion,
}

/// The two parts of a sealed field's message.
pub struct Sealed<'a> {
    pub nonce: &'a [u8],
    pub ciphertext: &'a [u8],
}

impl<'a> Framed<'a> {
    pub fn type_id(&self) -> u16 {
        self.raw.type_id.to_type_id()
    }

    pub fn is_sealed(&self) -> bool {
        self.raw.type_id == ExtensionFieldTypeId::NtsEncryptedField
    }

    pub fn message(&self) -> &'a [u8] {
        self.raw.message_bytes
    }

    /// The bytes that the field takes, with header and padding.
    pub fn taken(&self) -> usize {
        self.raw.wire_length(self.version)
    }

    pub fn decode(&self) -> Result<ExtensionField<'a>, Refused> {
        ExtensionField::decode(&self.raw, self.version)
    }

    pub fn sealed_parts(&self) -> Result<Sealed<'a>, Refused> {
        let RawEncryptedField { nonce, ciphertext } =
            RawEncryptedField::from_message_bytes(self.raw.message_bytes)?;
        Ok(Sealed { nonce, ciphertext })
    }
}

/// The field whose header starts the data.
pub fn frame(data: &[u8], version: ExtensionHeaderVersion) -> Result<Framed<'_>, Refused> {
    let raw = RawExtensionField::deserialize(data, RawExtensionField::BARE_MINIMUM_SIZE, version)?;
    Ok(Framed { raw, version })
}

/// The fields of the region after a packet's header, each with its offset in
/// the region. The two sizes are those with which the crate reads a region.
pub fn outer_fields(
    region: &[u8],
    version: ExtensionHeaderVersion,
) -> impl Iterator<Item = Result<(usize, Framed<'_>), Refused>> {
    let cutoff = match version {
        ExtensionHeaderVersion::V4 => Mac::MAXIMUM_SIZE,
        ExtensionHeaderVersion::V5 => 0,
    };
    let minimum = RawExtensionField::V4_UNENCRYPTED_MINIMUM_SIZE;
    fields(region, cutoff, minimum, version)
}

/// The fields of an opened plaintext, each with its offset in it.
pub fn inner_fields(
    plaintext: &[u8],
    version: ExtensionHeaderVersion,
) -> impl Iterator<Item = Result<(usize, Framed<'_>), Refused>> {
    let minimum = RawExtensionField::BARE_MINIMUM_SIZE;
    fields(plaintext, 0, minimum, version)
}

fn fields(
    buffer: &[u8],
    cutoff: usize,
    minimum: usize,
    version: ExtensionHeaderVersion,
) -> impl Iterator<Item = Result<(usize, Framed<'_>), Refused>> {
    RawExtensionField::deserialize_sequence(buffer, cutoff, minimum, version).map(move |field| {
        let (offset, raw) = field?;
        Ok((offset, Framed { raw, version }))
    })
}
