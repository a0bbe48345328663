//! Lists that are judged.

use super::{bytes, check};

/// So many fields without message, and the list of their places.
fn empty_fields(count: usize) -> String {
    let offsets: Vec<String> = (0..count).map(|i| (4 * i).to_string()).collect();
    let lengths = vec!["4"; count];
    let fields = "01040004".repeat(count);
    format!(
        "judge 5 0 {fields} {} {}",
        offsets.join(","),
        lengths.join(",")
    )
}

#[test]
fn regions_without_fields() {
    check("judge 5 0 - - -", "yes");
    check("judge 5 4 01040004 - -", "yes");
    check("judge 5 0 01040004 - -", "no");
    check("judge 5 0 00 - -", "no");
    let remainder = bytes(20, 0);
    check(&format!("judge 4 0 01040018{remainder} - -"), "yes");
    check(&format!("judge 4 0 01040018{remainder} 0 24"), "no");
    check(&format!("judge 4 0 01040018{remainder}00 - -"), "no");
}

#[test]
fn every_number_counts() {
    let judged = |offsets: &str, lengths: &str, answer: &str| {
        let case = format!("judge 5 2 eeee01040005aa11223302040004 {offsets} {lengths}");
        check(&case, answer);
    };
    judged("2,10", "8,4", "yes");
    // The header is not added, the padding not counted, the second field at the wrong place.
    judged("0,8", "8,4", "no");
    judged("2,10", "5,4", "no");
    judged("2,7", "5,4", "no");
    judged("2,11", "8,4", "no");
    judged("2,10", "8,3", "no");
    // A pair is missing or too many, the lists are not of one length.
    judged("2", "8", "no");
    judged("10", "4", "no");
    judged("-", "-", "no");
    judged("2,10,14", "8,4,0", "no");
    judged("2,10", "8", "no");
    judged("2", "8,4", "no");
    judged("2,10", "-", "no");
    // Numbers near 2^64, and sums that wrap around.
    judged("2,10", "18446744073709551615,4", "no");
    judged("2,10", "18446744073709551614,4", "no");
    judged("2,18446744073709551615", "8,4", "no");
    judged("2,10", "8,18446744073709551610", "no");
    judged("4294967298,10", "8,4", "no");
    judged("2,10", "65544,4", "no");
}

#[test]
fn the_last_24_bytes_of_v4() {
    let judged = |fields: &str, left: usize, lists: &str, answer: &str| {
        let left = bytes(left, 0x5A);
        check(&format!("judge 4 0 {fields}{left} {lists}"), answer);
    };
    judged("01040004", 24, "0 4", "yes");
    judged("01040004", 25, "0 4", "no");
    judged("01040004", 24, "0,4 4,24", "no");
    judged("01040004", 21, "0 4", "yes");
    judged("01040004", 20, "0 4", "no");
    judged("0104001c", 24, "0 28", "yes");
    judged("0104001c", 24, "- -", "no");
    judged("0104001a", 24, "0 28", "no");
    judged("0104001a", 24, "0 26", "no");
}

#[test]
fn frames_that_are_refused() {
    for (packet, lists) in [
        ("010400", "0 4"),
        ("01040003", "0 4"),
        ("01040003", "0 3"),
        ("01040000", "0 0"),
        ("01040005aa1122", "0 8"),
        ("01040005aa1122", "0 7"),
        ("0104000401", "0 4"),
        ("0104000401", "0,4 4,1"),
    ] {
        check(&format!("judge 5 0 {packet} {lists}"), "no");
    }
}

#[test]
fn contents_and_the_number_of_fields_are_not_judged() {
    for (packet, lists) in [
        ("0404000900010000aa000000", "0 12"),
        ("04040004", "0 4"),
        ("04040008ffffffff", "0 8"),
        ("0304000801000000", "0 8"),
        ("f5ff000880000000", "0 8"),
        ("f5030004", "0 4"),
    ] {
        check(&format!("judge 5 0 {packet} {lists}"), "yes");
    }
    for count in [64, 65, 128, 129, 16_383] {
        check(&empty_fields(count), "yes");
    }
}

#[test]
fn header_past_the_end_and_longest_packet() {
    check("judge 5 1 - - -", "no");
    check("judge 5 1 - 1 0", "no");
    check("judge 4 5 01040004 - -", "no");
    check("judge 4 18446744073709551615 01040004 - -", "no");
    let field = format!("0104fffc{}", bytes(65_528, 0));
    check(&format!("judge 4 0 {field}000000 0 65532"), "yes");
    check(&format!("judge 4 0 {field}00000000 0 65532"), "no");
    check(&format!("judge 5 0 {field} 0 65532"), "yes");
    check(&format!("judge 5 0 {field}01040004 0,65532 65532,4"), "no");
}

#[test]
fn words_that_are_no_lists() {
    for lists in [
        "-",
        "- - -",
        "0 4 ",
        "0, 4",
        ",0 4",
        "0 4,",
        "0:4 -",
        "00 4",
        "0 04",
        "-1 4",
        "0 +4",
        "0 0x4",
        "18446744073709551616 4",
        "0 18446744073709551616",
        "a 4",
    ] {
        check(&format!("judge 5 0 01040004 {lists}"), "?");
    }
    check("judge 3 0 - - -", "?");
    check("judge 5 - - - -", "?");
    check("judge 5 0 0 - -", "?");
    let numbers = |count: usize| vec!["0"; count].join(",");
    check(&format!("judge 5 0 - {} -", numbers(16_384)), "no");
    check(&format!("judge 5 0 - {0} {0}", numbers(16_384)), "no");
    check(&format!("judge 5 0 - {} -", numbers(16_385)), "?");
    check(&format!("judge 5 0 - - {}", numbers(16_385)), "?");
}
