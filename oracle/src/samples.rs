//! Document 01's samples as answers of the driver, and a case of each class that
//! is outside the domain.

use crate::format::hex;
use crate::generate;
use crate::packet::answer::domain::Outside;
use crate::packet::answer::{Answer, answer};

fn check(case: &str, expected: &str) {
    let (_, answer) = answer(case.as_bytes());
    assert_eq!(answer.to_string(), expected, "the answer to {case}");
}

fn check_outside(case: &str, reason: Outside) {
    let (_, answer) = answer(case.as_bytes());
    assert_eq!(answer, Answer::Outside(reason), "the answer to {case}");
}

/// A unique identifier field that states a length, made up to a number of bytes.
fn identifier(stated: u8, present: usize) -> String {
    let mut bytes = vec![1, 4, 0, stated];
    bytes.resize(present, 0x11);
    hex(&bytes)
}

#[test]
fn sample_1_v5_field_with_padding() {
    check(
        "read 5 0 01040005aa112233 - -",
        "0 UniqueIdentifier:260:0:1:8:u:aa - 0 -",
    );
}

#[test]
fn sample_2_v4_remainder() {
    check("read 4 0 01040005aa112233 - -", "0 - - 8 -");
    let bytes = identifier(24, 24);
    check(&format!("read 4 0 {bytes} - -"), "0 - - 24 -");
}

#[test]
fn sample_3_v4_field() {
    let bytes = identifier(28, 28);
    let message = "11".repeat(24);
    let answer = format!("0 UniqueIdentifier:260:0:24:28:u:{message} - 0 -");
    check(&format!("read 4 0 {bytes} - -"), &answer);
    let bytes = identifier(4, 28);
    let answer = "0 UniqueIdentifier:260:0:0:4:u:- - 24 -";
    check(&format!("read 4 0 {bytes} - -"), answer);
    let bytes = identifier(26, 28);
    check(&format!("read 4 0 {bytes} - -"), "1 0");
}

#[test]
fn sample_4_v5_short_regions() {
    check("read 5 0 - - -", "0 - - 0 -");
    check("read 5 0 010400 - -", "1 0");
    check("read 5 0 01040003 - -", "1 0");
}

#[test]
fn sample_5_marker_and_promotion() {
    let packet = "0104000404040008000000000404000800000000";
    let identifier = "UniqueIdentifier:260:0:0:4:a:-";
    let marker = "InvalidNtsEncryptedField:1028:4:4:8:a:00000000";
    check(
        &format!("read 5 0 {packet} 1:0:0,2:0:0 -"),
        &format!("5 {identifier},{marker} - 0 -"),
    );
    let case = format!("read 5 0 {packet} - -");
    check_outside(&case, Outside::ResultMissing);
}

#[test]
fn sample_6_lengths_inside_a_sealed_field() {
    check("read 5 0 0404000900010000aa000000 2:0:0 -", "1 0");
    check("read 5 0 0404000c00010000aa000000 2:0:0 -", "0 - - 0 -");
    check("survey 5 0 0404000900010000aa000000", "1 0 -");
    check("survey 5 0 0404000c00010000aa000000", "0 0 8:1:12:0:0");
}

#[test]
fn sample_7_written_fields() {
    let blank = "ee".repeat(24);
    let identifier = "01040010aa0000000000000000000000";
    check(
        &format!("write 4 1 - - 0 {blank} uid:aa - -"),
        &format!("0 24 - {identifier}0404000800000000"),
    );
    let blank = "ee".repeat(12);
    check(
        &format!("request-write 8 4 0 {blank}"),
        "0 12 f503000c0004000000000000",
    );
}

#[test]
fn messages_of_the_reply() {
    // The last bytes of a field are its padding, but for the text and the request.
    for (field, entry) in [
        ("0104000711223344", "UniqueIdentifier:260:0:3:8:u:112233"),
        ("0204000511223344", "NtsCookie:516:0:1:8:u:11"),
        (
            "0304000700000044",
            "NtsCookiePlaceholder:772:0:3:8:u:000000",
        ),
        (
            "f5ff000864726100",
            "DraftIdentification:62975:0:4:8:u:64726100",
        ),
        (
            "f503000800041122",
            "ReferenceIdRequest:62723:0:4:8:u:00041122",
        ),
        (
            "f504000711223344",
            "ReferenceIdResponse:62724:0:3:8:u:112233",
        ),
        ("0000000611223344", "Unknown:0:0:2:8:u:1122"),
    ] {
        check(
            &format!("read 5 0 {field} - -"),
            &format!("0 {entry} - 0 -"),
        );
    }
    check(
        "read 5 0 0404000900000001aa112233 1:0:0 -",
        "5 InvalidNtsEncryptedField:1028:0:5:12:u:00000001aa - 0 -",
    );
}

#[test]
fn messages_out_of_the_plaintext_buffer() {
    // The plaintext starts behind three bytes, and both sealed fields name it.
    let sealed = "04040010000000089999999999999999";
    let plain = "eeeeee0204000611223344";
    check(
        &format!("read 5 0 {sealed}{sealed} 2:3:8,2:3:8 {plain}"),
        "0 - NtsCookie:516:3:2:8:e:1122,NtsCookie:516:3:2:8:e:1122 0 -",
    );
    let plain = "eeeeeef503000611223344";
    check(
        &format!("read 5 0 {sealed} 2:3:8 {plain}"),
        "0 - ReferenceIdRequest:62723:3:2:8:e:1122 0 -",
    );
}

#[test]
fn lists_are_held_to_the_cut_of_the_iterator() {
    check("judge 5 2 eeee01040005aa11223302040004 2,10 8,4", "yes");
    check("judge 5 2 eeee01040005aa11223302040004 0,8 8,4", "no");
    check("judge 5 2 eeee01040005aa11223302040004 2,10 5,4", "no");
    check("judge 5 2 eeee01040005aa11223302040004 2,10 8", "no");
    check("judge 5 0 - - -", "yes");
    check("judge 5 0 01040004010400 0 4", "no");
    let remainder = "5a".repeat(24);
    check(&format!("judge 4 0 {remainder} - -"), "yes");
    check(&format!("judge 4 0 {remainder}5a - -"), "no");
    check(&format!("judge 4 0 01040004{remainder} 0 4"), "yes");
    // The reader and the survey refuse these fields.
    check("judge 5 0 0404000900010000aa000000 0 12", "yes");
    check("judge 5 0 0304000801000000 0 8", "yes");
    let case = format!("judge 5 0 - {} -", vec!["0"; 16_385].join(","));
    check(&case, "?");
}

#[test]
fn cookie_is_that_of_the_last_opened_field() {
    let sealed = "0404000800000000";
    check(
        &format!("read 5 0 {sealed}{sealed} 2:0:0,3:0:0 -"),
        "0 - - 0 1",
    );
    check(
        &format!("read 5 0 {sealed}{sealed} 3:0:0,2:0:0 -"),
        "0 - - 0 -",
    );
}

#[test]
fn many_opened_sealed_fields_are_inside() {
    let packet = "0404000800000000".repeat(129);
    let results = vec!["2:0:0"; 129].join(",");
    check(&format!("read 5 0 {packet} {results} -"), "0 - - 0 -");
}

#[test]
fn domain_ends_with_field_128() {
    let fields = |count| "01040004".repeat(count);
    let outer = |count| format!("read 5 0 {} - -", fields(count));
    // The nonce is empty, and the ciphertext as long as the plaintext.
    let inner = |count: usize| {
        let (length, fields) = (4 * count, fields(count));
        let sealed = format!("0404{:04x}0000{length:04x}{fields}", 8 + length);
        format!("read 5 0 {sealed} 2:0:{length} {fields}")
    };
    let survey = |count| format!("survey 5 0 {}", "0404000800000000".repeat(count));
    let is_inside = |case: String, start: &str| {
        let (_, answer) = answer(case.as_bytes());
        assert!(
            answer.to_string().starts_with(start),
            "the answer to {case}"
        );
    };
    for count in [65, 128] {
        is_inside(outer(count), "0 UniqueIdentifier");
        is_inside(inner(count), "0 - UniqueIdentifier");
        is_inside(survey(count), "0 0 8:0:8:0:0,");
    }
    for case in [outer(129), inner(129), survey(129)] {
        check_outside(&case, Outside::TooManyFields);
    }
}

#[test]
fn refused_writes_and_lines_that_are_no_case() {
    check("mac-write 1 - 0 aabbcc", "refused aabbcc");
    check("write 5 0 - - 0 - uid:aa - -", "refused -");
    check("write 5 1 - - 0 0000 - - marker", "refused 0000");
    check("write 4 1 - - 0 0000 - - padding:3", "refused 0000");
    check("write 5 1 - - 0 0000 - padding:0 -", "refused 0000");
    check("write 4 1 - - 0 0000 - - placeholder:65532", "refused 0000");
    check("write 4 1 - - 0 0000 - - padding:65536", "refused 0000");
    check("", "");
    check("round 01", "?");
    check("round 1 ", "?");
    check("nonsense", "?");
}

#[test]
fn cases_outside_the_domain_of_reading() {
    let long = "00".repeat(65_536);
    check_outside(&format!("read 5 0 {long} - -"), Outside::PacketTooLong);
    check_outside("read 5 1 - - -", Outside::HeaderPastEnd);
    check_outside(&format!("judge 5 0 {long} - -"), Outside::PacketTooLong);
    check_outside("judge 5 1 - - -", Outside::HeaderPastEnd);
    let sealed = "read 5 0 0404000c0000000401040004";
    check(
        &format!("{sealed} 2:0:4 01040004"),
        "0 - UniqueIdentifier:260:0:0:4:e:- 0 -",
    );
    let ill_formed = Outside::ResultIllFormed;
    check_outside(&format!("{sealed} 4:0:4 01040004"), ill_formed);
    check_outside(&format!("{sealed} 2:1:4 01040004"), ill_formed);
    let shorter = Outside::CiphertextShorter;
    check_outside("read 5 0 0404000800000000 2:0:4 01040004", shorter);
    let message = Outside::MessageTooLong;
    check_outside(&format!("request-read {long}"), message);
    check_outside("mac-read 0000000000", Outside::MacLength);
    check_outside(&format!("mac-read {}", &long[..2 * 23]), Outside::MacLength);
    check("mac-read 000000", "1");
    check(&format!("mac-read {}", &long[..2 * 25]), "1");
    check_outside("request-new 65532 4", Outside::RequestSumWraps);
    check_outside("response-cut 4 0 00000000", Outside::FilterSize);
}

#[test]
fn cases_outside_the_domain_of_writing() {
    let long = "00".repeat(65_536);
    let reason = Outside::MacLength;
    check_outside("mac-write 1 00 0 -", reason);
    check_outside(&format!("mac-write 1 {} 0 -", &long[..2 * 21]), reason);
    let reason = Outside::OutputTooLong;
    check_outside(&format!("mac-write 1 - 0 {long}"), reason);
    check_outside("write 5 1 - - 1 - - - -", Outside::StartPastEnd);
    let reason = Outside::FieldTooLong;
    check_outside("write 4 1 - - 0 - - - placeholder:65529", reason);
    check_outside("write 4 1 - - 0 - - - padding:65535", reason);
    check_outside("request-write 65532 0 0 -", reason);
    let reason = Outside::DraftNotAscii;
    check_outside("write 5 1 - - 0 - - - draft:c3a9", reason);
    let reason = Outside::RequestNotWritable;
    check_outside("write 5 1 - - 0 - - - request:0:0", reason);
    let reason = Outside::CiphertextShorter;
    check_outside("write 5 1 - 00 0 - - uid:- -", reason);
}

/// The bytes and the words of a header of NTPv3 or NTPv4 after its mode.
const REST: &str = "0106e900010000000080004750530001020304050607081112131415161718e000000000000001e000000080000002";
const REST_WORDS: &str = "1 6 -23 65536 32768 1196446464 72623859790382856 1230066625199609624 \
                          16140901064495857665 16140901066643341314";

#[test]
fn older_headers() {
    let read =
        |first: &str, answer: String| check(&format!("header34-read {first}{REST}"), &answer);
    read("1b", format!("0 0 3 3 {REST_WORDS}"));
    read("e7", format!("0 3 4 7 {REST_WORDS}"));
    read("14", "11 2".to_string());
    // What follows the header is not looked at: neither a MAC nor a field.
    let answer = format!("0 0 4 4 {REST_WORDS}");
    check(&format!("header34-read 24{REST}aa"), &answer);
    check("header34-read -", "1");
    check("header34-read 24", "1");
    check("header34-read 2c", "1");
    let room = "55".repeat(48);
    let write = |words: &str, first: &str| {
        check(
            &format!("header34-write 0 {room} {words} {REST_WORDS}"),
            &format!("0 48 {first}{REST}"),
        );
    };
    write("0 3 3", "1b");
    write("3 4 7", "e7");
    let case = format!("header34-write 1 {room} 0 4 4 {REST_WORDS}");
    check(&case, &format!("refused {room}"));
}

#[test]
fn cases_of_older_headers_outside_the_domain() {
    let long = "00".repeat(65_536);
    check_outside(&format!("header34-read 24{long}"), Outside::PacketTooLong);
    let reason = Outside::VersionBeforeLength;
    check_outside("header34-read 10", reason);
    check_outside(&format!("header34-read 3c{}", &REST[..92]), reason);
    let reason = Outside::HeaderOfVersion5;
    check_outside(&format!("header34-read 2c{REST}"), reason);
    let reason = Outside::HeaderNotWritable;
    for words in ["4 4 4", "0 2 4", "0 5 4", "0 4 8"] {
        check_outside(&format!("header34-write 0 - {words} {REST_WORDS}"), reason);
    }
    let case = format!("header34-write 0 {long} 0 4 4 {REST_WORDS}");
    check_outside(&case, Outside::OutputTooLong);
    // A word that is no number comes first.
    let case = format!("header34-write 0 - 4 4 4 {REST_WORDS}0");
    check(&case, "?");
}

#[test]
fn random_cases_are_repeatable_and_none_panics() {
    let cases = || {
        let mut cases = Vec::new();
        generate::random_cases(1, 20_000, &[], &mut cases).expect("memory does not fail");
        cases
    };
    assert_eq!(cases(), cases());
    for case in cases().split(|byte| *byte == b'\n') {
        let (name, answer) = answer(case);
        assert!(!matches!(answer, Answer::Panic(_)), "a case of {name}");
    }
}
