//! Writing: what the comparison with ntp-proto can't see.

use lobzhinar::{
    Between, Ciphertext, EncryptResult, FieldsToWrite, FilterOffset, Full, Nonce, Output,
    PayloadLen, ReferenceIdRequest, Refusal, serialize, stage_one, stage_one_without_cipher,
};

/// How many entries a table has, and how many fields a list holds if a host names no other number.
const TABLE: usize = 128;

#[test]
fn a_list_is_full_when_its_places_or_its_bytes_are() {
    let mut data = [0; 8];
    let mut fields = FieldsToWrite::<2>::with_capacity(&mut data);
    fields.encrypted().nts_cookie(&[1; 5]).unwrap();
    assert_eq!(fields.authenticated().nts_cookie(&[1; 4]).err(), Some(Full));
    fields.authenticated().nts_cookie(&[1; 3]).unwrap();
    assert_eq!(fields.authenticated().padding(4).err(), Some(Full));
    assert_eq!(fields.encrypted().padding(4).err(), Some(Full));
    fields.untrusted().padding(4).unwrap();
    let lens = [
        fields.authenticated().len(),
        fields.encrypted().len(),
        fields.untrusted().len(),
    ];
    assert_eq!(lens, [1, 1, 1]);
    fields.clear();
    assert!(fields.untrusted().is_empty());
    assert!(fields.authenticated().nts_cookie(&[1; 8]).is_ok());
}

#[test]
fn lists_have_as_many_places_as_a_table_has_entries() {
    let mut fields = FieldsToWrite::new(&mut []);
    for _ in 0..TABLE / 2 {
        fields.authenticated().padding(4).unwrap();
        fields.encrypted().padding(4).unwrap();
        fields.untrusted().padding(4).unwrap().padding(4).unwrap();
    }
    assert_eq!(fields.authenticated().padding(4).err(), Some(Full));
    assert_eq!(fields.encrypted().padding(4).err(), Some(Full));
    assert_eq!(fields.untrusted().padding(4).err(), Some(Full));
    let sealed_count = fields.authenticated().len() + fields.encrypted().len();
    assert_eq!((sealed_count, fields.untrusted().len()), (128, 128));
}

#[test]
fn fields_are_added_in_any_order_of_lists() {
    let mut data = [0; 64];
    let mut fields = FieldsToWrite::new(&mut data);
    fields.untrusted().unknown(0x2003, &[3; 4]).unwrap();
    fields.encrypted().unknown(0x2002, &[2; 4]).unwrap();
    fields.authenticated().unknown(0x2001, &[1; 12]).unwrap();
    fields.encrypted().padding(4).unwrap();
    let (mut out, mut plaintext) = ([0; 128], [0; 64]);
    let output = Output::v5(&mut out);
    let stage = stage_one(&fields, output, &mut plaintext).unwrap();
    assert_eq!(
        stage.plaintext(),
        [0x20, 2, 0, 8, 2, 2, 2, 2, 0xF5, 1, 0, 4]
    );
    assert_eq!(stage.associated_data().len(), 48 + 16);
    assert_eq!(stage.associated_data()[48..52], [0x20, 1, 0, 16]);
    let packet_len = stage
        .stage_two(Nonce(&[8; 4]), Ciphertext(&[9; 16]))
        .unwrap();
    assert_eq!(packet_len, 48 + 16 + 28 + 8);
    assert_eq!(out[64..72], [4, 4, 0, 28, 0, 4, 0, 16]);
    assert_eq!(out[72..76], [8; 4]);
    assert_eq!(out[76..92], [9; 16]);
    assert_eq!(out[92..100], [0x20, 3, 0, 8, 3, 3, 3, 3]);
}

#[test]
fn a_seal_that_is_owed_is_not_left_out() {
    let mut data = [0; 64];
    let mut fields = FieldsToWrite::new(&mut data);
    fields.authenticated().unique_identifier(&[1; 32]).unwrap();
    let (mut out, mut plaintext) = ([0; 128], [0; 64]);
    let stage = stage_one(&fields, Output::v4(&mut out), &mut plaintext).unwrap();
    assert!(stage.owes_seal());
    assert_eq!(stage.stage_two_without_seal(), Err(Refusal::NoCipher));
    let refused = stage_one_without_cipher(&fields, Output::v4(&mut out));
    assert_eq!(refused.unwrap_err(), Refusal::NoCipher);
}

#[test]
fn without_a_seal_nothing_is_sealed() {
    let mut data = [0; 64];
    let mut fields = FieldsToWrite::new(&mut data);
    fields.untrusted().unique_identifier(&[1; 32]).unwrap();
    let mut out = [0; 128];
    let stage = stage_one_without_cipher(&fields, Output::v4(&mut out)).unwrap();
    assert!(!stage.owes_seal());
    assert_eq!(stage.stage_two_without_seal(), Ok(48 + 36));
    let between = Between {
        plaintext: &mut [],
        nonce: &mut [],
        ciphertext: &mut [],
    };
    let packet_len = serialize(&fields, Output::v4(&mut out), between, |_| {
        panic!("there is nothing to seal")
    });
    assert_eq!(packet_len, Ok(48 + 36));
}

#[test]
fn a_cipher_that_fails_or_says_too_much_writes_no_packet() {
    let mut data = [0; 64];
    let mut fields = FieldsToWrite::new(&mut data);
    fields.encrypted().nts_cookie(&[1; 32]).unwrap();
    let write = |sealed: Option<EncryptResult>| {
        let between = Between {
            plaintext: &mut [0; 64],
            nonce: &mut [0; 16],
            ciphertext: &mut [0; 64],
        };
        serialize(&fields, Output::v4(&mut [0; 256]), between, |_| sealed)
    };
    let lens = |nonce_length, ciphertext_length| {
        Some(EncryptResult {
            nonce_length,
            ciphertext_length,
        })
    };
    assert_eq!(write(None), Err(Refusal::NoCipher));
    assert_eq!(write(lens(17, 52)), Err(Refusal::NoRoom));
    assert_eq!(write(lens(16, 65)), Err(Refusal::NoRoom));
    assert_eq!(write(lens(16, 52)), Ok(48 + 8 + 16 + 52));
}

#[test]
fn a_header_past_the_output_is_refused() {
    let mut data = [];
    let fields = FieldsToWrite::new(&mut data);
    let mut out = [0; 47];
    let refused = stage_one(&fields, Output::v4(&mut out), &mut []);
    assert_eq!(refused.unwrap_err(), Refusal::NoRoom);
}

#[test]
fn a_request_has_a_length_and_an_offset() {
    let request = ReferenceIdRequest::new(PayloadLen(8), FilterOffset(4)).unwrap();
    let mut out = [0xFF; 12];
    assert_eq!(request.serialize(&mut out, 0), Ok(12));
    assert_eq!(out, [0xF5, 3, 0, 12, 0, 4, 0, 0, 0, 0, 0, 0]);
    assert_eq!(ReferenceIdRequest::decode(&out[4..]), Ok(request));
    let refused = ReferenceIdRequest::new(PayloadLen(6), FilterOffset(4));
    assert_eq!(refused, Err(Refusal::CannotBeMade));
}
