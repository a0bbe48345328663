//! The samples of document 01, and both sides of each limit of the rules. The
//! expected lines were worked out by hand.

use super::answer;

mod header34;
mod judging;
mod reading;
mod writing;

fn check(case: &str, expected: &str) {
    assert_eq!(answer(case.as_bytes()), expected, "the answer to {case}");
}

/// A case with long words: only how its answer begins is compared.
fn check_start(case: &str, expected: &str) {
    let answer = answer(case.as_bytes());
    let start = answer.get(..expected.len());
    let shown = &case[..case.len().min(80)];
    assert_eq!(start, Some(expected), "the answer to {shown}..");
}

/// So many bytes of a value, as a word.
fn bytes(count: usize, value: u8) -> String {
    match count {
        0 => "-".to_string(),
        _ => format!("{value:02x}").repeat(count),
    }
}

#[test]
fn lines_that_are_no_case() {
    check("", "");
    for line in [
        " ",
        "rounds 1",
        "round",
        "round 1 1",
        "round 65536",
        "kind 3 260",
        "read 5 0 - 1:0 -",
        "write 5 1 - - 0 - marker:0 - -",
        "header5-write 0 - 3 3 0 0 0 0 0 0 0 0 0 0 0 0 0 0",
        "header5-write 0 - 0 5 0 0 0 0 0 0 0 0 0 0 0 0 0 0",
        "header5-write 0 - 0 3 0 0 128 0 0 0 0 0 0 0 0 0 0 0",
        "header5-write 0 - 0 3 0 0 -0 0 0 0 0 0 0 0 0 0 0 0",
        "header5-write 0 - 0 3 0 0 0 0 0 4 0 0 0 0 0 0 0 0",
    ] {
        check(line, "?");
    }
    let most = vec!["marker"; 16_384].join(",");
    check(&format!("write 5 1 - - 0 - - - {most}"), "18 -");
    check(&format!("write 5 1 - - 0 - marker - {most}"), "?");
}

#[test]
fn rounding_and_kinds() {
    check("round 0", "0 0");
    check("round 1", "0 4");
    check("round 4", "0 4");
    check("round 65535", "0 65536");
    check("kind 4 62719", "0 Unknown");
    check("kind 5 62975", "0 DraftIdentification");
    check("kind 4 62975", "0 Unknown");
    check("kind 5 62723", "0 ReferenceIdRequest");
    check("kind 5 62724", "0 ReferenceIdResponse");
    check("kind 5 62721", "0 Unknown");
    check("kind 4 1028", "0 NtsEncryptedField");
    check("kind 4 516", "0 NtsCookie");
    check("kind 5 772", "0 NtsCookiePlaceholder");
}

#[test]
fn macs() {
    check("mac-read 000102", "1");
    check("mac-read 00010203", "0 66051 -");
    let body = bytes(20, 7);
    check(
        &format!("mac-read ffffffff{body}"),
        &format!("0 4294967295 {body}"),
    );
    check(&format!("mac-read ffffffff{body}07"), "1");
    let shorter = bytes(16, 7);
    check(
        &format!("mac-read 0000000a{shorter}"),
        &format!("0 10 {shorter}"),
    );
    let (room, written) = (bytes(20, 5), format!("0000000a{shorter}"));
    check(
        &format!("mac-write 10 {shorter} 0 {room}"),
        &format!("0 20 {written}"),
    );
    check("mac-read 00010203040506", "1");
    check("mac-read 0001020304050607", "1");
    check("mac-write 1 - 1 555555555555", "0 4 550000000155");
    check("mac-write 1 - 3 555555555555", "16 555555555555");
    check(
        "mac-write 1 aaaaaaaa 0 5555555555555555",
        "18 5555555555555555",
    );
    check(&format!("mac-write 1 {body}07 0 -"), "18 -");
    check(&format!("mac-write 1 {body} 0 -"), "16 -");
}

#[test]
fn requests() {
    check("request-new 8 504", "0 8 504");
    check("request-new 8 505", "18");
    check("request-new 6 0", "18");
    check("request-new 0 512", "0 0 512");
    check("request-new 65532 4", "18");
    check("request-read 01", "1");
    check("request-read 0102", "0 2 258");
    check_start(&format!("request-read {}", bytes(65_535, 1)), "0 65535 257");
    check(&format!("request-read {}", bytes(65_536, 1)), "1");
    let out = bytes(8, 0x55);
    check(
        &format!("request-write 4 1 0 {out}"),
        "0 8 f503000800010000",
    );
    check(&format!("request-write 4 1 1 {out}"), &format!("16 {out}"));
    check(&format!("request-write 0 1 0 {out}"), &format!("18 {out}"));
    check(&format!("request-write 2 1 0 {out}"), &format!("18 {out}"));
    check("request-write 65528 1 0 -", "16 -");
    check("request-write 65532 1 0 -", "15 -");
    check("request-write 65534 1 0 -", "18 -");
}

#[test]
fn responses() {
    check(&format!("response-new {}", bytes(512, 1)), "0 512");
    check(&format!("response-new {}", bytes(516, 1)), "18");
    check("response-new 01", "18");
    check("response-cut 2 1 010203", "0 0203");
    check("response-cut 3 1 010203", "18");
    check("response-cut 0 3 010203", "0 -");
    check("response-cut 0 4 010203", "18");
    check("response-read 01", "0 01");
    check_start(&format!("response-read {}", bytes(65_536, 1)), "0 0101");
    check(
        "response-write 01 0 5555555555555555",
        "0 8 f504000501000000",
    );
    check("response-write 01 0 55555555555555", "16 55555555555555");
    let out = bytes(65_535, 0x55);
    let length = "f504fffc";
    let data = bytes(65_528, 1);
    check_start(
        &format!("response-write {data} 0 {out}"),
        &format!("0 65532 {length}"),
    );
    let data = bytes(65_531, 1);
    check_start(&format!("response-write {data} 0 {out}"), "16 5555");
    let data = bytes(65_532, 1);
    check_start(&format!("response-write {data} 0 {out}"), "15 5555");
}

/// A header to read: its first byte, and bytes 12 to 15.
fn header_bytes(first: u8, judged: [u8; 4]) -> String {
    let [timescale, era, high, low] = judged;
    let before = "0102ff0000000400000005";
    let after = "000000000000000600000000000000070000000000000008ffffffffffffffff";
    format!("{first:02x}{before}{timescale:02x}{era:02x}{high:02x}{low:02x}{after}")
}

#[test]
fn headers_are_read() {
    let read =
        |first, judged| answer(format!("header5-read {}", header_bytes(first, judged)).as_bytes());
    let rest = "6 7 8 18446744073709551615";
    assert_eq!(
        read(0x2B, [3, 9, 0, 7]),
        format!("0 0 3 1 2 -1 4 5 3 9 1 1 1 {rest}")
    );
    // A leap stands only where the header says that it is synchronized.
    for (first, flags, leap) in [
        (0x6C, 1, "1"),
        (0xAC, 1, "2"),
        (0xEC, 1, "unknown"),
        (0xEC, 0, "unsynchronized"),
        (0x2C, 0, "unsynchronized"),
    ] {
        let expected = format!("0 {leap} 4 1 2 -1 ");
        assert!(read(first, [0, 0, 0, flags]).starts_with(&expected));
    }
    assert_eq!(read(0x23, [9, 9, 9, 9]), "11 4");
    assert_eq!(read(0x2D, [9, 9, 9, 9]), "12");
    assert_eq!(read(0x2A, [9, 9, 9, 9]), "12");
    assert_eq!(read(0x2B, [4, 9, 9, 9]), "13");
    assert_eq!(read(0x2B, [3, 9, 1, 0]), "14");
    assert_eq!(read(0x2B, [3, 9, 0, 8]), "14");
    let whole = header_bytes(0x2B, [0, 0, 0, 0]);
    check(&format!("header5-read {}", &whole[..94]), "1");
    check_start(&format!("header5-read {whole}00"), "0 unsynchronized 3");
}

#[test]
fn headers_are_written() {
    let words = "unknown 4 1 2 -128 4 5 3 9 1 0 1 6 7 8 9";
    let written = "ec010280000000040000000503090005\
                   0000000000000006000000000000000700000000000000080000000000000009";
    let out = bytes(48, 0x55);
    check(
        &format!("header5-write 0 {out} {words}"),
        &format!("0 48 {written}"),
    );
    check(
        &format!("header5-write 1 {out} {words}"),
        &format!("16 {out}"),
    );
    let words = "2 3 1 2 127 0 0 0 0 0 1 0 6 7 8 9";
    check_start(
        &format!("header5-write 0 {out} {words}"),
        "0 48 ab01027f000000000000000000000002",
    );
}

#[test]
fn time_readings() {
    check(
        "reading 268435456 1",
        "0 3ff0000000000000 3e30000000000000 3fe0000002000000",
    );
    check(
        "reading 0 4294967295",
        "0 0000000000000000 402fffffffe00000 402fffffffe00000",
    );
    check(
        "reading 268435456 134217728",
        "0 3ff0000000000000 3fe0000000000000 3ff0000000000000",
    );
    check(
        "reading 1 0",
        "0 3e30000000000000 0000000000000000 3e20000000000000",
    );
}
