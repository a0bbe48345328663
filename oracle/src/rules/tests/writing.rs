//! Writing in two stages.

use super::{bytes, check, check_start};

#[test]
fn sample_7() {
    check(
        &format!("write 4 1 - - 0 {} uid:aa - -", bytes(24, 0xEE)),
        "0 24 - 01040010aa00000000000000000000000404000800000000",
    );
    check(
        &format!("request-write 8 4 0 {}", bytes(12, 0xEE)),
        "0 12 f503000c0004000000000000",
    );
}

#[test]
fn minimum_sizes() {
    let write = |version: u8, lists: &str, written: &str| {
        let out = bytes(written.len() / 2, 0xEE);
        let (count, plain) = (
            written.len() / 2,
            if lists.starts_with('-') {
                "-"
            } else {
                "01040004"
            },
        );
        check(
            &format!("write {version} 1 - - 0 {out} {lists}"),
            &format!("0 {count} {plain} {written}"),
        );
    };
    let (sixteen, zeros) = ("01040010", bytes(12, 0));
    let twenty_eight = format!("0104001c{}", bytes(24, 0));
    write(
        4,
        "- - uid:-,uid:-",
        &format!("{sixteen}{zeros}{twenty_eight}"),
    );
    write(5, "- - uid:-,uid:aa", "0104000401040005aa000000");
    // Authenticated fields have 16 bytes, fields to be sealed no minimum.
    write(
        5,
        "uid:- uid:- -",
        &format!("{sixteen}{zeros}0404000800000000"),
    );
    // Reference ids have none, and their length is not rounded up in V4.
    write(
        4,
        "- - response:aa,request:4:7",
        "f5040005aa000000f503000800070000",
    );
}

#[test]
fn fields_of_every_kind() {
    let write = |field: &str, written: &str| {
        let out = bytes(written.len() / 2, 0xEE);
        let count = written.len() / 2;
        check(
            &format!("write 5 0 - - 0 {out} - - {field}"),
            &format!("0 {count} - {written}"),
        );
    };
    write("unknown:1028:aabb", "04040006aabb0000");
    write("cookie:-", "02040004");
    write("placeholder:5", "030400090000000000000000");
    write("draft:7f", "f5ff00057f000000");
    write("padding:4", "f5010004");
    write("padding:5", "f501000500000000");
}

#[test]
fn sealed_field_and_plaintext() {
    let sealed = "0404001400050003010203040500000006070800";
    let out = bytes(28, 0xEE);
    check(
        &format!("write 4 1 0102030405 060708 2 {out} - uid:aabb,cookie:- -"),
        &format!("0 20 01040008aabb000002040004 eeee{sealed}eeeeeeeeeeee"),
    );
    // Without fields to protect, nonce and ciphertext are not read.
    check("write 4 1 aa bb 0 eeee - - -", "0 0 - eeee");
}

#[test]
fn limits_of_a_fields_data() {
    let write = |version: u8, field: &str, answer: &str| {
        let out = bytes(65_535, 0xEE);
        check_start(
            &format!("write {version} 1 - - 0 {out} - - {field}"),
            answer,
        );
    };
    write(4, "placeholder:65528", "0 65532 - 0304fffc");
    write(4, "placeholder:65529", "15 eeee");
    write(4, "padding:65533", "15 eeee");
    write(5, "placeholder:65528", "0 65532 - 0304fffc");
    write(5, "placeholder:65531", "16 eeee");
    write(5, "placeholder:65532", "15 eeee");
    write(5, "padding:18446744073709551615", "15 eeee");
    write(4, "request:65528:0", "0 65532 - f503fffc");
    write(4, "request:65532:0", "15 eeee");
    let response = |count| format!("response:{}", bytes(count, 1));
    write(4, &response(65_531), "16 eeee");
    write(4, &response(65_532), "15 eeee");
}

#[test]
fn fields_that_cannot_be_written() {
    for field in [
        "marker",
        "padding:3",
        "padding:0",
        "draft:00ff",
        "draft:80",
        "request:0:0",
        "request:6:0",
    ] {
        check(&format!("write 4 1 - - 0 eeee - - {field}"), "18 eeee");
        check(&format!("write 5 1 - - 0 eeee {field} - -"), "18 eeee");
        check(&format!("write 5 1 - - 0 eeee - {field} -"), "18 eeee");
    }
}

#[test]
fn order_of_refusals() {
    // No cipher comes before the start, the start before any field.
    check("write 5 0 - - 3 eeee marker - -", "17 eeee");
    check("write 5 0 - - 3 eeee - marker -", "17 eeee");
    check("write 5 1 - - 3 eeee marker - -", "16 eeee");
    check("write 5 0 - - 3 eeee - - marker", "16 eeee");
    check("write 5 0 - - 2 eeee - - marker", "18 eeee");
    check("write 5 0 - - 2 eeee - - -", "0 0 - eeee");
    check("write 5 0 - - 3 eeee - - -", "16 eeee");
    // All tests of a field come before the next field.
    check("write 5 1 - - 0 eeee uid:-,marker - -", "16 eeee");
    check("write 5 1 - - 0 eeee padding:70000,marker - -", "15 eeee");
    check("write 5 1 - - 0 eeee marker,padding:70000 - -", "18 eeee");
    // The plaintext comes after the authenticated fields.
    check("write 5 1 - - 0 eeee uid:- marker -", "16 eeee");
    let out = bytes(16, 0xEE);
    check(
        &format!("write 5 1 - - 0 {out} uid:- marker -"),
        &format!("18 {out}"),
    );
}

#[test]
fn stage_two_refuses_after_the_bytes_of_stage_one() {
    let (first, sealed) = (format!("01040010{}", bytes(12, 0)), "0404000800000000");
    let write = |room: usize, untrusted: &str, answer: String| {
        let out = bytes(room, 0xEE);
        check(
            &format!("write 5 1 - - 0 {out} uid:- - {untrusted}"),
            &answer,
        );
    };
    write(23, "marker", format!("16 {first}{}", bytes(7, 0xEE)));
    write(24, "marker", format!("18 {first}{}", bytes(8, 0xEE)));
    write(27, "uid:-", format!("16 {first}{}", bytes(11, 0xEE)));
    write(28, "uid:-", format!("0 28 - {first}{sealed}01040004"));
}

#[test]
fn plaintext_has_65535_bytes_of_room() {
    let write = |fields: &str, answer: &str| {
        check_start(&format!("write 5 1 - - 0 eeee - {fields} -"), answer);
    };
    // 65,532 bytes fit, and the marker is reached; four more do not.
    write("placeholder:65520,uid:aabbccdd,marker", "18 eeee");
    write("placeholder:65520,uid:aabbccdd,uid:-,marker", "16 eeee");
}

#[test]
fn outputs_over_65535_bytes() {
    let out = bytes(70_000, 0xEE);
    let write = |cipher: u8, at: usize, lists: &str, answer: &str| {
        check_start(&format!("write 5 {cipher} - - {at} {out} {lists}"), answer);
    };
    write(1, 65_535, "- - -", "0 0 - eeee");
    write(1, 65_536, "- - -", "16 eeee");
    write(1, 66_000, "- - -", "16 eeee");
    write(1, 66_000, "- - marker", "16 eeee");
    write(1, 66_000, "marker - -", "16 eeee");
    write(0, 66_000, "- uid:- -", "17 eeee");
    write(1, 65_531, "- - uid:-", "0 4 - eeee");
    write(1, 65_532, "- - uid:-", "16 eeee");
    check_start(&format!("mac-write 1 - 65531 {out}"), "0 4 eeee");
    check_start(&format!("mac-write 1 - 65532 {out}"), "16 eeee");
    let header = "0 3 0 0 0 0 0 0 0 0 0 0 0 0 0 0";
    check_start(&format!("header5-write 65487 {out} {header}"), "0 48 eeee");
    check_start(&format!("header5-write 65488 {out} {header}"), "16 eeee");
}
