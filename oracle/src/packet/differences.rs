//! What ntp-proto does where the rules decide otherwise, or where it parts
//! from the RFCs: the smallest inputs of docs/DIFFERENCES.md, on its own code.

use super::crypto::{Cipher, CipherHolder, DecryptError, EncryptResult};
use super::error::ParsingError;
use super::extension_fields::{ExtensionField, ExtensionFieldData, ExtensionHeaderVersion, probe};
use super::mac::{Mac, probe as mac_probe};
use super::v5::V5Error;
use super::v5::extension_fields::probe::make_request;
use super::v5::extension_fields::{ReferenceIdRequest, ReferenceIdResponse};
use super::{CipherProvider, NtpHeader, NtpHeaderV3V4, NtpLeapIndicator, NtpPacket};
use std::borrow::Cow;
use std::io::Cursor;
use std::panic::catch_unwind;
use std::sync::Mutex;

/// A host that has no key.
struct NoKey;

impl CipherProvider for NoKey {
    fn get(&self, _: &[ExtensionField<'_>]) -> Option<CipherHolder<'_>> {
        None
    }
}

/// Whether the crate panics.
fn panics(run: impl FnOnce() + std::panic::UnwindSafe) -> bool {
    catch_unwind(run).is_err()
}

fn request_bytes(payload_len: u16) -> Vec<u8> {
    let mut out = Vec::new();
    make_request(payload_len, 1).serialize(&mut out).unwrap();
    out
}

#[test]
fn mac_of_any_length_from_4_to_24_is_read() {
    let mac = Mac::deserialize(&[0; 5]).unwrap();
    assert_eq!(mac_probe::parts(&mac), (0, &[0][..]));
    for len in 4..=24 {
        let bytes = vec![0xaa; len];
        let mac = Mac::deserialize(&bytes).unwrap();
        assert_eq!(mac_probe::parts(&mac), (0xaaaa_aaaa, &bytes[4..]));
    }
    assert!(Mac::deserialize(&[0; 3]).is_err());
    assert!(Mac::deserialize(&[0; 25]).is_err());
}

#[test]
fn mac_body_of_any_length_is_written() {
    let mut out = [0x55; 5];
    let mut cursor = Cursor::new(&mut out[..]);
    mac_probe::make(1, &[0xaa]).serialize(&mut cursor).unwrap();
    assert_eq!(out, [0, 0, 0, 1, 0xaa]);
    for len in (0..=24).chain([65_531]) {
        let (mut out, body) = (Vec::new(), vec![0xaa; len]);
        mac_probe::make(1, &body).serialize(&mut out).unwrap();
        assert_eq!(out, [&[0, 0, 0, 1], &body[..]].concat());
    }
}

#[test]
fn refused_mac_write_leaves_bytes_of_its_key_id() {
    let mut out = [0x55];
    let mut cursor = Cursor::new(&mut out[..]);
    assert!(mac_probe::make(1, &[]).serialize(&mut cursor).is_err());
    assert_eq!(out, [0]);
}

#[test]
fn output_past_65535_bytes_is_written() {
    let mut out = vec![0; 65_540];
    let mut cursor = Cursor::new(&mut out[..]);
    cursor.set_position(65_533);
    assert!(mac_probe::make(1, &[]).serialize(&mut cursor).is_ok());
    assert_eq!(out[65_536], 1);
}

#[test]
fn new_request_whose_sum_wraps_is_made() {
    assert!(ReferenceIdRequest::new(65_532, 4).is_some());
}

#[test]
fn request_for_no_bytes_is_written_with_length_4() {
    assert_eq!(request_bytes(0), [0xf5, 3, 0, 4, 0, 1, 0, 0]);
}

#[test]
fn request_for_two_bytes_panics_when_written() {
    assert!(panics(|| drop(request_bytes(2))));
}

#[test]
fn request_for_65532_bytes_is_written_with_length_0() {
    assert_eq!(request_bytes(65_532)[..4], [0xf5, 3, 0, 0]);
}

#[test]
fn request_message_over_65535_bytes_panics() {
    assert!(panics(|| drop(ReferenceIdRequest::decode(&[0; 65_536]))));
}

#[test]
fn response_over_65531_bytes_is_written_with_length_0_to_3() {
    let mut out = Vec::new();
    let bytes = [0; 65_532];
    ReferenceIdResponse::decode(&bytes)
        .serialize(&mut out)
        .unwrap();
    assert_eq!(out[..4], [0xf5, 4, 0, 0]);
    for (len, stated) in [(65_533, 1), (65_534, 2), (65_535, 3)] {
        let mut out = Vec::new();
        ReferenceIdResponse::decode(&vec![0; len])
            .serialize(&mut out)
            .unwrap();
        assert_eq!(out[..4], [0xf5, 4, 0, stated]);
    }
    assert!(panics(|| {
        let _ = ReferenceIdResponse::decode(&[0; 65_536]).serialize(Vec::new());
    }));
}

#[test]
fn v4_field_of_65529_bytes_is_written_with_length_0() {
    let mut out = Vec::new();
    ExtensionField::UniqueIdentifier(Cow::Owned(vec![0; 65_529]))
        .serialize(&mut out, 16, ExtensionHeaderVersion::V4)
        .unwrap();
    assert_eq!(out[..4], [1, 4, 0, 0]);
}

#[test]
fn v4_field_of_65532_bytes_is_refused() {
    let mut out = Vec::new();
    let field = ExtensionField::UniqueIdentifier(Cow::Owned(vec![0; 65_532]));
    assert!(
        field
            .serialize(&mut out, 16, ExtensionHeaderVersion::V4)
            .is_err()
    );
}

#[test]
fn padding_below_4_bytes_is_refused() {
    for length in 0..4 {
        for version in [ExtensionHeaderVersion::V4, ExtensionHeaderVersion::V5] {
            let padding = ExtensionField::Padding(length);
            assert!(padding.serialize(Vec::new(), 16, version).is_err());
        }
    }
}

#[test]
fn draft_identification_of_any_text_is_written() {
    let mut out = Vec::new();
    ExtensionField::DraftIdentification(Cow::Borrowed("\u{e9}"))
        .serialize(&mut out, 4, ExtensionHeaderVersion::V5)
        .unwrap();
    assert_eq!(out, [0xf5, 0xff, 0, 6, 0xc3, 0xa9, 0, 0]);
}

#[test]
fn nothing_is_written_past_the_end() {
    let mut out = [0; 2];
    let mut cursor = Cursor::new(&mut out[..]);
    cursor.set_position(3);
    let lists = ExtensionFieldData::default();
    assert!(
        lists
            .serialize(&mut cursor, &NoKey, ExtensionHeaderVersion::V4)
            .is_ok()
    );
}

#[test]
fn v4_fields_shorter_than_16_bytes_are_read() {
    assert!(probe::frame(&[1, 4, 0, 4], ExtensionHeaderVersion::V4).is_ok());
}

#[test]
fn placeholder_that_is_not_zero_is_refused() {
    let field = [3, 4, 0, 8, 0, 0, 0, 0xff];
    let framed = probe::frame(&field, ExtensionHeaderVersion::V5).unwrap();
    assert!(framed.decode().is_err());
}

/// A key that opens every sealed field to nothing.
struct Opens;

impl Cipher for Opens {
    fn encrypt(&self, _: &mut [u8], _: usize, _: &[u8]) -> std::io::Result<EncryptResult> {
        unreachable!("a reader seals nothing")
    }

    fn decrypt(&self, _: &[u8], _: &[u8], _: &[u8]) -> Result<Vec<u8>, DecryptError> {
        Ok(Vec::new())
    }
}

/// A server's keys, chosen as `KeySet` chooses: by the one cookie among the items that it is handed. It
/// keeps how many items those were.
struct ByCookie(Mutex<Vec<usize>>);

impl CipherProvider for ByCookie {
    fn get(&self, context: &[ExtensionField<'_>]) -> Option<CipherHolder<'_>> {
        self.0.lock().unwrap().push(context.len());
        let cookies = context
            .iter()
            .filter(|field| matches!(field, ExtensionField::NtsCookie(_)));
        (cookies.count() == 1).then_some(CipherHolder::Other(&Opens))
    }
}

/// How many items the key chooser is handed for each sealed field, and whether the packet is accepted.
fn chosen_by_cookie(packet: &[u8]) -> (Vec<usize>, bool) {
    let keys = ByCookie(Mutex::default());
    let read = ExtensionFieldData::deserialize(packet, 0, &keys, ExtensionHeaderVersion::V5);
    let accepted = read.is_ok();
    (keys.0.into_inner().unwrap(), accepted)
}

const COOKIE: [u8; 4] = [2, 4, 0, 4];
const SEAL: [u8; 8] = [4, 4, 0, 8, 0, 0, 0, 0];

#[test]
fn key_is_chosen_by_the_items_since_the_last_opened_field() {
    let packet = [&COOKIE[..], &SEAL, &SEAL].concat();
    assert_eq!(chosen_by_cookie(&packet), (vec![1, 0], false));
}

#[test]
fn no_key_is_chosen_by_two_cookies() {
    let packet = [&COOKIE[..], &COOKIE, &SEAL].concat();
    assert_eq!(chosen_by_cookie(&packet), (vec![2], false));
}

/// The refusal of a packet with no key.
fn refusal(packet: &[u8]) -> ParsingError<()> {
    let read = NtpPacket::deserialize(packet, &NoKey);
    let refused = read.expect_err("a refusal");
    refused
        .get_decrypt_error::<()>()
        .expect_err("no sealed field")
}

/// 48 bytes of a header, this one first.
fn header_bytes(first: u8) -> [u8; 48] {
    let mut bytes = [0xAA; 48];
    bytes[0] = first;
    bytes
}

/// The header of a V4 packet that is nothing else.
fn read_v4(bytes: &[u8; 48]) -> NtpHeaderV3V4 {
    let (packet, _) = NtpPacket::deserialize(bytes, &NoKey).unwrap();
    match packet.header {
        NtpHeader::V4(header) => header,
        other => panic!("a header of another version: {other:?}"),
    }
}

/// Writes the packet of a header alone, and tells whether the Rust accepts it.
fn write_v4(header: NtpHeaderV3V4, out: &mut [u8]) -> bool {
    let packet = NtpPacket {
        header: NtpHeader::V4(header),
        efdata: ExtensionFieldData::default(),
        mac: None,
    };
    let mut cursor = Cursor::new(out);
    packet.serialize(&mut cursor, &NoKey, None).is_ok()
}

#[test]
fn version_is_tested_before_the_length() {
    assert!(matches!(refusal(&[0x10]), ParsingError::InvalidVersion(2)));
    for version in [0, 1, 2, 6, 7] {
        for length in 1..48 {
            let refused = refusal(&header_bytes(version << 3)[..length]);
            assert!(matches!(refused, ParsingError::InvalidVersion(seen) if seen == version));
        }
    }
}

#[test]
fn header_shorter_than_48_bytes_is_refused() {
    let incorrect = |packet: &[u8]| matches!(refusal(packet), ParsingError::IncorrectLength);
    assert!(incorrect(&[]));
    for version in [3, 4, 5] {
        assert!(incorrect(&[version << 3]));
        assert!(incorrect(&header_bytes(version << 3)[..47]));
    }
}

#[test]
fn version_5_is_not_read_as_the_older_header() {
    // The Rust reads its NTPv5 header there, which has no mode 0. Then it wants to
    // see which draft the packet follows.
    let mut packet = [0; 48];
    packet[0] = 0x28;
    let refused = refusal(&packet);
    assert!(matches!(refused, ParsingError::V5(V5Error::MalformedMode)));
    packet[0] = 0x2B;
    let refused = refusal(&packet);
    assert!(matches!(
        refused,
        ParsingError::V5(V5Error::InvalidDraftIdentification)
    ));
}

#[test]
fn leap_3_is_read_as_unsynchronized_and_written_as_3() {
    let bytes = header_bytes(0xE4);
    let mut header = read_v4(&bytes);
    assert_eq!(header.leap, NtpLeapIndicator::Unsynchronized);
    for leap in [NtpLeapIndicator::Unsynchronized, NtpLeapIndicator::Unknown] {
        header.leap = leap;
        let mut out = [0; 48];
        assert!(write_v4(header, &mut out));
        assert_eq!(out, bytes);
    }
}

#[test]
fn largest_delay_and_dispersion_survive() {
    let mut bytes = header_bytes(0x24);
    for delay in [0xFFFF_FFFF_u32, 0x8000_0000, 0x7FFF_FFFF, 1] {
        bytes[4..8].copy_from_slice(&delay.to_be_bytes());
        bytes[8..12].copy_from_slice(&delay.rotate_left(1).to_be_bytes());
        let mut out = [0; 48];
        assert!(write_v4(read_v4(&bytes), &mut out));
        assert_eq!(out, bytes);
    }
}

#[test]
fn refused_header_write_leaves_its_first_bytes() {
    let bytes = header_bytes(0x24);
    let mut out = [0x55];
    assert!(!write_v4(read_v4(&bytes), &mut out));
    assert_eq!(out, [0x24]);
    let mut out = [0x55; 47];
    assert!(!write_v4(read_v4(&bytes), &mut out));
    assert_eq!(out, bytes[..47]);
}

#[test]
fn packet_reader_goes_on_behind_the_older_header() {
    // A byte that follows the header is a MAC to it, and too short for one.
    for version in [3, 4] {
        let packet = [&header_bytes(version << 3)[..], &[0]].concat();
        assert!(matches!(refusal(&packet), ParsingError::IncorrectLength));
        assert!(NtpHeaderV3V4::deserialize(&packet).is_ok());
    }
}
