//! ntp-proto's side.

use crate::packet::NtpHeaderV3V4;
use crate::packet::crypto::{Cipher, CipherHolder, CipherProvider, DecryptError, EncryptResult};
use crate::packet::error::ParsingError;
use crate::packet::extension_fields::{ExtensionField, ExtensionFieldData};
use crate::packet::v5::NtpHeaderV5;
use crate::packets::{FieldToWrite, HEADER, Packet, ToWrite};
use std::convert::Infallible;
use std::io::Cursor;

/// A key that opens every sealed field to one plaintext.
struct Key(Vec<u8>);

impl Cipher for Key {
    fn encrypt(&self, _: &mut [u8], _: usize, _: &[u8]) -> std::io::Result<EncryptResult> {
        unreachable!("a reader seals nothing")
    }

    fn decrypt(&self, _: &[u8], _: &[u8], _: &[u8]) -> Result<Vec<u8>, DecryptError> {
        Ok(self.0.clone())
    }
}

impl CipherProvider for Key {
    fn get(&self, _: &[ExtensionField<'_>]) -> Option<CipherHolder<'_>> {
        Some(CipherHolder::Other(self))
    }
}

/// Reads a packet and adds up the messages' lengths, as a caller looks at every field. A refusal is
/// document 01's number, from the other end.
pub struct Reader<'a> {
    packet: &'a Packet,
    key: Key,
}

impl<'a> Reader<'a> {
    pub fn new(packet: &'a Packet) -> Self {
        let key = Key(packet.plain.clone().unwrap_or_default());
        Self { packet, key }
    }

    pub fn read(&self) -> u64 {
        let Packet { version, bytes, .. } = self.packet;
        match ExtensionFieldData::deserialize(bytes, HEADER, &self.key, *version) {
            Ok(reply) => {
                let data = &reply.efdata;
                let lists = [&data.authenticated, &data.encrypted, &data.untrusted];
                lists.into_iter().flatten().map(length).sum()
            }
            Err(ParsingError::IncorrectLength) => u64::MAX - 1,
            Err(_) => u64::MAX,
        }
    }
}

fn length(field: &ExtensionField) -> u64 {
    match field {
        ExtensionField::UniqueIdentifier(data)
        | ExtensionField::NtsCookie(data)
        | ExtensionField::Unknown { data, .. } => data.len() as u64,
        ExtensionField::NtsCookiePlaceholder { cookie_length } => u64::from(*cookie_length),
        _ => unreachable!("no packet of the benchmark has one"),
    }
}

/// A key that seals with a given nonce and ciphertext.
struct Seal {
    nonce: Vec<u8>,
    ciphertext: Vec<u8>,
}

impl Cipher for Seal {
    fn encrypt(&self, buffer: &mut [u8], _: usize, _: &[u8]) -> std::io::Result<EncryptResult> {
        let (nonce, rest) = buffer.split_at_mut(self.nonce.len());
        nonce.copy_from_slice(&self.nonce);
        rest[..self.ciphertext.len()].copy_from_slice(&self.ciphertext);
        Ok(EncryptResult {
            nonce_length: self.nonce.len(),
            ciphertext_length: self.ciphertext.len(),
        })
    }

    fn decrypt(&self, _: &[u8], _: &[u8], _: &[u8]) -> Result<Vec<u8>, DecryptError> {
        unreachable!("a writer opens nothing")
    }
}

impl CipherProvider for Seal {
    fn get(&self, _: &[ExtensionField<'_>]) -> Option<CipherHolder<'_>> {
        Some(CipherHolder::Other(self))
    }
}

/// Writes fields behind a header.
pub struct Writer<'a> {
    what: &'a ToWrite,
    fields: ExtensionFieldData<'static>,
    seal: Seal,
    pub out: Vec<u8>,
}

impl<'a> Writer<'a> {
    pub fn new(what: &'a ToWrite, room: usize) -> Self {
        let list = |fields: &[FieldToWrite]| fields.iter().map(|&field| made(field)).collect();
        Self {
            what,
            fields: ExtensionFieldData {
                authenticated: list(&what.authenticated),
                encrypted: list(&what.encrypted),
                untrusted: list(&what.untrusted),
            },
            seal: Seal {
                nonce: what.nonce.clone(),
                ciphertext: what.ciphertext.clone(),
            },
            out: vec![0; room],
        }
    }

    /// How many bytes were written.
    pub fn write(&mut self) -> u64 {
        let mut cursor = Cursor::new(&mut self.out[..]);
        cursor.set_position(HEADER as u64);
        let done = self
            .fields
            .serialize(&mut cursor, &self.seal, self.what.version);
        done.expect("there is room");
        cursor.position() - HEADER as u64
    }
}

fn made(field: FieldToWrite) -> ExtensionField<'static> {
    match field {
        FieldToWrite::UniqueIdentifier(length) => {
            ExtensionField::UniqueIdentifier(vec![0xAA; length].into())
        }
        FieldToWrite::NtsCookie(length) => ExtensionField::NtsCookie(vec![0xAA; length].into()),
        FieldToWrite::NtsCookiePlaceholder(length) => ExtensionField::NtsCookiePlaceholder {
            cookie_length: u16::try_from(length).expect("a short placeholder"),
        },
        FieldToWrite::Unknown(length) => ExtensionField::Unknown {
            type_id: 0x2001,
            data: vec![0xAA; length].into(),
        },
    }
}

/// A header of the crate, of either kind. What reads and writes it is not inlined, so that it is a call as the port's
/// is.
pub trait AnyHeader: Sized {
    fn deserialized(bytes: &[u8]) -> Result<(Self, usize), ParsingError<Infallible>>;
    fn serialized(&self, cursor: &mut Cursor<&mut [u8]>) -> std::io::Result<()>;
    fn stratum(&self) -> u8;
}

impl AnyHeader for NtpHeaderV5 {
    #[inline(never)]
    fn deserialized(bytes: &[u8]) -> Result<(Self, usize), ParsingError<Infallible>> {
        Self::deserialize(bytes)
    }

    #[inline(never)]
    fn serialized(&self, cursor: &mut Cursor<&mut [u8]>) -> std::io::Result<()> {
        self.serialize(cursor)
    }

    fn stratum(&self) -> u8 {
        self.stratum
    }
}

/// It has no version: the crate's reader of a packet looks at that before, and its writer hands it in.
impl AnyHeader for NtpHeaderV3V4 {
    #[inline(never)]
    fn deserialized(bytes: &[u8]) -> Result<(Self, usize), ParsingError<Infallible>> {
        Self::deserialize(bytes)
    }

    #[inline(never)]
    fn serialized(&self, cursor: &mut Cursor<&mut [u8]>) -> std::io::Result<()> {
        self.serialize(cursor, 4)
    }

    fn stratum(&self) -> u8 {
        self.stratum
    }
}

/// Reads and writes a header.
pub struct Header<H> {
    header: H,
    bytes: Vec<u8>,
    pub out: Vec<u8>,
}

impl<H: AnyHeader> Header<H> {
    pub fn new(bytes: &[u8]) -> Self {
        let (header, _) = H::deserialized(bytes).expect("a header");
        Self {
            header,
            bytes: bytes.to_vec(),
            out: vec![0; HEADER],
        }
    }

    pub fn read(&self) -> u64 {
        let (header, _) = H::deserialized(std::hint::black_box(&self.bytes)).expect("a header");
        std::hint::black_box(&header);
        u64::from(header.stratum())
    }

    pub fn write(&mut self) -> u64 {
        let mut cursor = Cursor::new(&mut self.out[..]);
        let done = std::hint::black_box(&self.header).serialized(&mut cursor);
        done.expect("there is room");
        cursor.position()
    }
}
