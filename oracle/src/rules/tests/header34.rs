//! The header of NTPv3 and NTPv4, and its time reading.

use super::{answer, bytes, check, check_start};

/// What follows the first byte, as bytes and as words.
const REST: &str = "0106e900010000000080004750530001020304050607081112131415161718e000000000000001e000000080000002";
const REST_WORDS: &str = "1 6 -23 65536 32768 1196446464 72623859790382856 1230066625199609624 \
                          16140901064495857665 16140901066643341314";

/// The answer to a header with this first byte.
fn read(first: u8) -> String {
    answer(format!("header34-read {first:02x}{REST}").as_bytes())
}

#[test]
fn headers_are_read() {
    assert_eq!(read(0x64), format!("0 1 4 4 {REST_WORDS}"));
    assert_eq!(read(0x1B), format!("0 0 3 3 {REST_WORDS}"));
    let (ones, fours) = ("ff".repeat(47), "4294967295 ".repeat(3));
    let times = ["18446744073709551615"; 4].join(" ");
    check(
        &format!("header34-read df{ones}"),
        &format!("0 3 3 7 255 255 -1 {fours}{times}"),
    );
    check(
        &format!("header34-read 20{}", "00".repeat(47)),
        "0 0 4 0 0 0 0 0 0 0 0 0 0 0",
    );
}

#[test]
fn every_mode_and_leap_is_kept() {
    for (version, first) in [(3, 0x18), (4, 0x20)] {
        for mode in 0..=7 {
            let expected = format!("0 0 {version} {mode} {REST_WORDS}");
            assert_eq!(read(first + mode), expected);
        }
    }
    assert_eq!(read(0xA4), format!("0 2 4 4 {REST_WORDS}"));
    assert_eq!(read(0xE4), format!("0 3 4 4 {REST_WORDS}"));
}

#[test]
fn length_comes_before_the_version() {
    for (first, version) in [(0x04, 0), (0x14, 2), (0xEF, 5), (0x34, 6), (0x3C, 7)] {
        assert_eq!(read(first), format!("11 {version}"));
        let short = &REST[..92];
        check(&format!("header34-read {first:02x}{short}"), "1");
        check(&format!("header34-read {first:02x}"), "1");
    }
    check("header34-read -", "1");
    check(&format!("header34-read 24{}", &REST[..92]), "1");
    check(
        &format!("header34-read 24{REST}aa"),
        &format!("0 0 4 4 {REST_WORDS}"),
    );
}

#[test]
fn headers_are_written() {
    let out = bytes(48, 0x55);
    for (words, first) in [
        ("3 4 7", "e7"),
        ("1 3 0", "58"),
        ("0 3 3", "1b"),
        ("2 4 4", "a4"),
    ] {
        check(
            &format!("header34-write 0 {out} {words} {REST_WORDS}"),
            &format!("0 48 {first}{REST}"),
        );
    }
    check(
        &format!("header34-write 1 55{out}55 0 4 4 {REST_WORDS}"),
        &format!("0 48 5524{REST}55"),
    );
    check_start(
        &format!("header34-write 0 {out} 0 4 0 255 255 -128 4294967295 0 0 0 0 0 0"),
        "0 48 20ffff80ffffffff00000000",
    );
}

#[test]
fn ranges_come_before_the_room() {
    let long = bytes(48, 0x55);
    for words in ["4 4 4", "0 2 4", "0 5 4", "0 4 8", "255 4 4", "0 0 0"] {
        for (at, out) in [("0", &long[..]), ("0", "-"), ("49", &long[..])] {
            check(
                &format!("header34-write {at} {out} {words} {REST_WORDS}"),
                &format!("18 {out}"),
            );
        }
    }
    let short = &long[2..];
    for (at, out) in [("0", short), ("1", &long[..]), ("49", &long[..])] {
        check(
            &format!("header34-write {at} {out} 3 3 7 {REST_WORDS}"),
            &format!("16 {out}"),
        );
    }
    let out = bytes(70_000, 0xEE);
    let write = |at| format!("header34-write {at} {out} 0 4 4 {REST_WORDS}");
    check_start(&write("65487"), "0 48 eeee");
    check_start(&write("65488"), "16 eeee");
}

#[test]
fn lines_that_are_no_case() {
    for line in [
        "header34-read",
        "header34-read - -",
        "header34-write 0 - 0 4 3 0 0 0 0 0 0 0 0 0",
        "header34-write 0 - 0 4 3 0 0 0 0 0 0 0 0 0 0 0",
        "header34-write 0 - 256 4 3 0 0 0 0 0 0 0 0 0 0",
        "header34-write 0 - unknown 4 3 0 0 0 0 0 0 0 0 0 0",
        "header34-write 0 - 0 4 3 0 -1 0 0 0 0 0 0 0 0",
        "header34-write 0 - 0 4 3 0 0 -0 0 0 0 0 0 0 0",
        "header34-write 0 - 0 4 3 0 0 128 0 0 0 0 0 0 0",
        "header34-write 0 - 0 4 3 0 0 0 0 0 4294967296 0 0 0 0",
        // A word that is no number is told before a value that can't be written.
        "header34-write 0 - 4 5 8 0 0 -129 0 0 0 0 0 0 0",
        "reading34 0",
        "reading34 4294967296 0",
    ] {
        check(line, "?");
    }
}

#[test]
fn time_readings() {
    check(
        "reading34 65536 32768",
        "0 3ff0000000000000 3fe0000000000000 3ff0000000000000",
    );
    check(
        "reading34 65536 1",
        "0 3ff0000000000000 3ef0000000000000 3fe0002000000000",
    );
    check(
        "reading34 1 0",
        "0 3ef0000000000000 0000000000000000 3ee0000000000000",
    );
    check(
        "reading34 4294967295 4294967295",
        "0 40efffffffe00000 40efffffffe00000 40f7ffffffe80000",
    );
}
