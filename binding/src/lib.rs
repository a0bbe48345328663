//! ntp-proto's packet code, proved: a safe binding to the library `pump`, with ntp-proto's names.
//!
//! Nothing is allocated, and no standard library is needed. What ntp-proto keeps in a `Vec` is in tables and buffers
//! of the caller's. Ciphers, keys, clocks and sockets stay with the caller.
//!
//! # With a cipher, in one call
//!
//! [`deserialize`] reads a packet and [`serialize`] writes one. Both call a closure that has the cipher.
//!
//! ```
//! use lobzhinar::{
//!     Between, EncryptResult, ExtensionField, FieldsToWrite, Opening, Output, Packet, Workspace, deserialize, serialize,
//! };
//!
//! // A toy in place of a cipher, which protects nothing: a sum of what it saw, in one byte.
//! fn toy_tag(associated_data: &[u8], text: &[u8]) -> u8 {
//!     associated_data.iter().chain(text).fold(7, |sum, byte| sum.wrapping_mul(31).wrapping_add(*byte))
//! }
//!
//! // A request: an identifier and a cookie that are authenticated, and a placeholder that is encrypted.
//! let mut data = [0; 256];
//! let mut fields = FieldsToWrite::new(&mut data);
//! fields.authenticated().unique_identifier(&[1; 32])?.nts_cookie(&[2; 100])?;
//! fields.encrypted().nts_cookie_placeholder(100)?;
//!
//! let mut packet = [0; 512]; // its first 48 bytes are the header
//! let between = Between { plaintext: &mut [0; 256], nonce: &mut [0; 16], ciphertext: &mut [0; 256] };
//! let packet_len = serialize(&fields, Output::v4(&mut packet), between, |work| {
//!     let (text, tag) = work.ciphertext.split_at_mut_checked(work.plaintext.len())?;
//!     text.copy_from_slice(work.plaintext);
//!     *tag.first_mut()? = toy_tag(work.associated_data, work.plaintext);
//!     Some(EncryptResult { nonce_length: work.nonce.len(), ciphertext_length: text.len() + 1 })
//! })?;
//!
//! // The server reads it. The cookie, which is untrusted before a seal is opened, would say which key to open by.
//! let (mut workspace, mut plaintexts) = (Workspace::new(), [0; 512]);
//! let packet = Packet::v4(&packet[..packet_len]);
//! let read = deserialize(packet, &mut workspace, &mut plaintexts, |sealed, mut context, room| {
//!     if !context.any(|item| matches!(item.field(), ExtensionField::NtsCookie(_))) {
//!         return Opening::NoKey;
//!     }
//!     match sealed.ciphertext().split_last() {
//!         Some((tag, text)) if *tag == toy_tag(sealed.associated_data(), text) && text.len() <= room.len() => {
//!             room[..text.len()].copy_from_slice(text);
//!             Opening::OpenedByCookie { plaintext_len: text.len() }
//!         }
//!         _ => Opening::Failed,
//!     }
//! })
//! .map_err(|error| error.refusal())?;
//! let identifier = read.authenticated_field(0)?;
//! assert_eq!(identifier.field(), ExtensionField::UniqueIdentifier(&[1; 32]));
//! let placeholder = read.encrypted_field(0)?;
//! assert_eq!(placeholder.field(), ExtensionField::NtsCookiePlaceholder { cookie_length: 100 });
//! assert_eq!(read.untrusted().len(), 0);
//! # Ok::<(), Box<dyn std::error::Error>>(())
//! ```
//!
//! # Trust is in the type
//!
//! A field is a [`Field`] of [`Authenticated`], [`Untrusted`] or [`Encrypted`]. A function that takes a
//! `Field<'_, Authenticated>` can't be given another one. A packet of which a sealed field was not opened is an error,
//! [`ReadError::DecryptError`], that has the fields with it; so `?` does not accept it.
//!
//! What no type can see is whether a sealed field was opened with the right key, over its associated data. A program
//! that says `Opened` where nothing was opened makes a packet authentic.
//!
//! The bytes of a field live as long as the packet or the buffer of plaintexts, and not only as long as the tables:
//!
//! ```
//! use lobzhinar::{ExtensionField, Opening, Packet, Refusal, Workspace, deserialize};
//!
//! /// The identifier of a request of `NTPv4`, which nothing vouches for here.
//! fn identifier(packet: &[u8]) -> Result<Option<&[u8]>, Refusal> {
//!     let mut workspace = Workspace::new();
//!     let read = deserialize(Packet::v4(packet), &mut workspace, &mut [], |_, _, _| Opening::NoKey)?;
//!     Ok(read.untrusted().find_map(|field| match field.field() {
//!         ExtensionField::UniqueIdentifier(bytes) => Some(bytes),
//!         _ => None,
//!     }))
//! }
//!
//! let mut packet = [7; 48 + 36];
//! packet[48..52].copy_from_slice(&[0x01, 0x04, 0, 36]);
//! assert_eq!(identifier(&packet), Ok(Some(&[7; 32][..])));
//! ```
//!
//! # Step by step
//!
//! A host that can't open within a call surveys the packet, adds a result for each sealed field, and reads.
//!
//! ```
//! use lobzhinar::{Packet, Results, SealTable, Tables, survey};
//!
//! # let bytes = [&[0; 48][..], &[0x01, 0x04, 0, 16], &[7; 12], &[0x04, 0x04, 0, 40, 0, 16, 0, 16], &[8; 32]].concat();
//! # fn open(_: &[u8], _: &[u8], _: &[u8], _: &mut [u8]) -> Option<usize> { Some(0) }
//! let (mut seals, mut plaintexts, mut tables) = (SealTable::new(), [0; 512], Tables::new());
//! let survey = survey(Packet::v4(&bytes), &mut seals);
//! let mut results = Results::new(&survey, &mut plaintexts, &mut tables);
//! for sealed in &survey {
//!     // The caller's cipher; it returns the length of the plaintext if the field is authentic.
//!     match open(sealed.associated_data(), sealed.nonce(), sealed.ciphertext(), results.room()) {
//!         Some(plaintext_len) => results.opened(&sealed, plaintext_len)?,
//!         None => results.failed(&sealed)?,
//!     }
//! }
//! let read = results.deserialize().map_err(|error| error.refusal())?;
//! assert_eq!(read.authenticated().len(), 1);
//! # Ok::<(), Box<dyn std::error::Error>>(())
//! ```
//!
//! A host that can't seal within a call writes in two stages. The first one keeps the output until the second is done.
//!
//! ```
//! use lobzhinar::{Ciphertext, FieldsToWrite, Nonce, Output, stage_one};
//!
//! # fn seal(_: &[u8], _: &[u8]) -> ([u8; 16], [u8; 16]) { ([8; 16], [9; 16]) }
//! let mut data = [0; 256];
//! let mut fields = FieldsToWrite::new(&mut data);
//! fields.authenticated().unique_identifier(&[1; 32])?;
//!
//! let (mut packet, mut plaintext) = ([0; 512], [0; 256]);
//! let stage = stage_one(&fields, Output::v4(&mut packet), &mut plaintext)?;
//! assert!(stage.owes_seal());
//! // The caller's cipher.
//! let (nonce, ciphertext) = seal(stage.associated_data(), stage.plaintext());
//! let packet_len = stage.stage_two(Nonce(&nonce), Ciphertext(&ciphertext))?;
//! assert_eq!(packet_len, 48 + 36 + 40);
//! # Ok::<(), Box<dyn std::error::Error>>(())
//! ```
//!
//! # A cut that a gateway proposes
//!
//! [`Packet::is_cut`] says whether a table of offsets and lengths, one [`Cut`] for each field, is the cut of a packet.
//! [`Packet::is_cut_lists`] says it of two lists. Neither uses a key, or looks at what the fields hold.
//!
//! # The header
//!
//! Times have a type of their own, and only the library turns them into seconds. [`NtpHeaderV3V4`] is the header of
//! `NTPv3` and `NTPv4`; its times and its leap are not those of `NTPv5`, and have other types.
//!
//! ```
//! use lobzhinar::*;
//!
//! let header = NtpHeaderV5 {
//!     leap: NtpLeapIndicator::NoWarning,
//!     mode: NtpMode::Response,
//!     stratum: 1,
//!     poll: PollInterval::from_byte(6),
//!     precision_log2_seconds: -20,
//!     timescale: NtpTimescale::Utc,
//!     era: NtpEra(0),
//!     flags: NtpFlags { synchronized: true, interleaved_mode: false, authnak: false },
//!     root_delay: Time32::from_units_of_2pow_minus_28_s(1 << 28),
//!     root_dispersion: Time32::from_units_of_2pow_minus_28_s(1 << 27),
//!     server_cookie: NtpServerCookie(0),
//!     client_cookie: NtpClientCookie(7),
//!     receive_timestamp: NtpTimestamp::from_units_of_2pow_minus_32_s_in_era(0),
//!     transmit_timestamp: NtpTimestamp::from_units_of_2pow_minus_32_s_in_era(0),
//! };
//! let mut packet = [0; HEADER_SIZE];
//! assert_eq!(header.serialize(&mut packet, 0), Ok(HEADER_SIZE));
//! assert_eq!(NtpHeaderV5::deserialize(&packet), Ok(header));
//! // Half of the delay of 1 s, plus the dispersion of 0.5 s.
//! assert_eq!(header.time_reading().distance_seconds, 1.0);
//! ```
//!
//! # A journal
//!
//! A [`Journal`] keeps verdicts and headers in [`Flash`] of at most 32,768 bytes, and survives a loss of power. The host
//! stores one byte at a time; which one is next, the library says.
//!
//! ```
//! use lobzhinar::{Entry, Journal, JournalError, Opening, Packet, ReadBody, Refusal, Workspace, deserialize};
//!
//! let mut flash = [0xff; 4096]; // a `Flash` in memory, blank
//! let mut journal = Journal::recover(&mut flash)?;
//!
//! let packet = [7; 40];
//! let mut workspace = Workspace::new();
//! let read = deserialize(Packet::v4(&packet), &mut workspace, &mut [], |_, _, _| Opening::NoKey);
//! journal.append_read(&ReadBody::of(&read))?;
//!
//! for entry in journal.entries() {
//!     match entry.entry() {
//!         Entry::Read { number, .. } => assert_eq!(Refusal::from_number(number), Some(Refusal::HeaderPastEnd)),
//!         Entry::Header(header) => println!("{header:02x?}"),
//!     }
//! }
//! # Ok::<(), JournalError<core::convert::Infallible>>(())
//! ```
//!
//! An auditor reads an image by [`JournalEntries::of`], which changes nothing.
//!
//! # From ntp-proto
//!
//! | ntp-proto 1.9.0 | Here |
//! |---|---|
//! | `ExtensionFieldData::deserialize(data, header_size, cipher, version)` | [`deserialize`] of a [`Packet`], which has data, header size and version |
//! | `ExtensionFieldData::serialize(w, cipher, version)` | [`serialize`] of [`FieldsToWrite`] to an [`Output`] |
//! | `CipherProvider::get(context)` and `Cipher::decrypt` | the closure of [`deserialize`]: [`Sealed`], [`Context`], [`Opening`] |
//! | `Cipher::encrypt`, `EncryptResult` | the closure of [`serialize`]: [`ToSeal`], [`EncryptResult`] |
//! | `CipherHolder::DecodedServerCookie` | [`Opening::OpenedByCookie`] |
//! | `NoCipher` | a closure that returns [`Opening::NoKey`]; [`stage_one_without_cipher`] |
//! | `DeserializedExtensionField` | [`ExtensionFieldData`] |
//! | `DeserializedExtensionField::cookie` | [`ExtensionFieldData::cookie`]: the number of the sealed field |
//! | `InvalidNtsExtensionField` | [`InvalidNtsExtensionField`] |
//! | `ExtensionFieldData { authenticated, encrypted, untrusted }`, read | the methods of these names of [`ExtensionFieldData`] |
//! | the same, to write | the methods of these names of [`FieldsToWrite`] |
//! | `ExtensionField` | [`ExtensionField`], by [`Field::field`]; a `Padding` is only written |
//! | `RawExtensionField::wire_length` | [`Field::wire_length`] |
//! | `ExtensionHeaderVersion` | [`ExtensionHeaderVersion`] |
//! | `ParsingError::DecryptError` | [`ReadError::DecryptError`] |
//! | `ParsingError` and `V5Error`, all others | [`Refusal`], in [`ReadError::Refused`] and [`HeaderError`] |
//! | `io::Error` of a writer, `None` of a constructor | [`Refusal`] |
//! | `Mac` | [`Mac`], which has 4, 20 or 24 bytes; ntp-proto reads 4 to 24 and writes any body |
//! | `NtpHeaderV5`, `NtpMode`, `NtpTimescale`, `NtpEra`, `NtpFlags`, `NtpLeapIndicator` | the same names |
//! | `NtpHeader::V3` and `NtpHeader::V4` of an `NtpHeaderV3V4` | [`NtpHeaderV3V4`], whose [`version`](NtpHeaderV3V4::version) says which |
//! | `NtpHeaderV3V4::leap`, an `NtpLeapIndicator` | [`LeapBits`], which has no `Unknown` |
//! | `NtpAssociationMode` | the same name |
//! | `precision` of a header | [`NtpHeaderV5::precision_log2_seconds`], [`NtpHeaderV3V4::precision_log2_seconds`] |
//! | `NtpServerCookie`, `NtpClientCookie` | the same names, of a `u64` |
//! | `NtpDuration` of a header | [`Time32`] in `NTPv5`, [`NtpShort`] in `NTPv3` and `NTPv4` |
//! | `NtpDuration::to_seconds` | [`Time32::seconds`], [`NtpShort::seconds`], [`NtpHeaderV5::time_reading`], [`NtpHeaderV3V4::time_reading`] |
//! | `NtpTimestamp`, `PollInterval` | the same names |
//! | `ReferenceId` | the same name, with the kiss codes |
//! | `ReferenceIdRequest`, `ReferenceIdResponse` | the same names; a request's two numbers are [`PayloadLen`] and [`FilterOffset`] |
//! | `NtpPacket`, `KeySet`, `BloomFilter`, the builders of responses | not here |
//!
//! # Features
//!
//! - `raw` makes the module `ffi` public: the C functions as they are, for comparisons and measurements. No host needs
//!   it.
//!
//! # Linking
//!
//! The variable `LOBZHINAR_LIBRARY` names the folder that has `libpump.a`, at build time. `cargo check` and `cargo doc`
//! do without. A library of another interface does not link: [`INTERFACE`].

#![no_std]
#![deny(
    missing_docs,
    missing_debug_implementations,
    unsafe_op_in_unsafe_fn,
    clippy::undocumented_unsafe_blocks
)]

#[cfg(test)]
extern crate std;

mod cut;
#[cfg(not(feature = "raw"))]
mod ffi;
#[cfg(feature = "raw")]
pub mod ffi;
mod field;
mod fields_to_write;
mod flash;
mod header;
mod header_v3v4;
mod journal;
mod journal_entry;
mod journal_store;
mod kind;
mod link;
mod mac;
mod one_call;
mod packet;
mod place;
mod reading;
mod reference_ids;
mod refusal;
mod results;
mod survey;
mod units;
mod version;
mod writing;

pub use cut::Cut;
pub use field::{Authenticated, Encrypted, ExtensionField, Field, Trust, Untrusted};
pub use fields_to_write::{FieldsToWrite, Full, ListToWrite};
pub use flash::Flash;
pub use header::{
    HeaderError, NtpEra, NtpFlags, NtpHeaderV5, NtpLeapIndicator, NtpMode, NtpTimescale,
    TimeReading,
};
pub use header_v3v4::{LeapBits, NtpAssociationMode, NtpHeaderV3V4, NtpVersionV3V4};
pub use journal::{Journal, JournalError, NotRecovered};
pub use journal_entry::{
    Entry, JOURNAL_LONGEST_IMAGE, JournalEntries, JournalEntry, JournalFound, JournalKind, ReadBody,
};
pub use link::{INTERFACE, interface_of_library};
pub use mac::Mac;
pub use one_call::{Context, Workspace, deserialize};
pub use packet::Packet;
pub use place::{PacketOffset, PlaintextsOffset};
pub use reading::{ExtensionFieldData, Fields, InvalidNtsExtensionField, ReadError, Tables};
pub use reference_ids::{FilterOffset, PayloadLen, ReferenceIdRequest, ReferenceIdResponse};
pub use refusal::{Fault, Refusal};
pub use results::{NotItsTurn, Opening, Results};
pub use survey::{SealTable, Sealed, SealedFields, Survey, survey};
pub use units::{
    NtpClientCookie, NtpServerCookie, NtpShort, NtpTimestamp, PollInterval, ReferenceId, Time32,
};
pub use version::{ExtensionHeaderVersion, HEADER_SIZE};
pub use writing::{
    Between, Ciphertext, EncryptResult, Nonce, Output, StageOne, ToSeal, serialize, stage_one,
    stage_one_without_cipher,
};
