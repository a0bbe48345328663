//! Reading and the survey.

use super::{answer, bytes, check, check_start};

/// A unique identifier field that states a length, made up to a number of bytes.
fn identifier(stated: u8, present: usize) -> String {
    format!("010400{stated:02x}{}", bytes(present - 4, 0x11))
}

#[test]
fn samples_1_to_4() {
    check(
        "read 5 0 01040005aa112233 - -",
        "0 UniqueIdentifier:260:0:1:8:u:aa - 0 -",
    );
    check("read 4 0 01040005aa112233 - -", "0 - - 8 -");
    let read = |packet: String, answer: &str| check(&format!("read 4 0 {packet} - -"), answer);
    read(identifier(24, 24), "0 - - 24 -");
    let message = bytes(24, 0x11);
    let one = format!("0 UniqueIdentifier:260:0:24:28:u:{message} - 0 -");
    read(identifier(28, 28), &one);
    let short = "0 UniqueIdentifier:260:0:0:4:u:- - 24 -";
    read(identifier(4, 28), short);
    read(identifier(26, 28), "1 0");
    // One byte more than a remainder has.
    let short = "0 UniqueIdentifier:260:0:0:4:u:- - 21 -";
    read(identifier(4, 25), short);
    check("read 5 0 - - -", "0 - - 0 -");
    check("read 5 0 010400 - -", "1 0");
    check("read 5 0 01040003 - -", "1 0");
}

#[test]
fn samples_5_and_6() {
    let packet = "0104000404040008000000000404000800000000";
    let identifier = "UniqueIdentifier:260:0:0:4:a:-";
    let marker = "InvalidNtsEncryptedField:1028:4:4:8:a:00000000";
    check(
        &format!("read 5 0 {packet} 1:0:0,2:0:0 -"),
        &format!("5 {identifier},{marker} - 0 -"),
    );
    check(&format!("read 5 0 {packet} - -"), "9 4");
    check("read 5 0 0404000900010000aa000000 2:0:0 -", "1 0");
    check("read 5 0 0404000c00010000aa000000 2:0:0 -", "0 - - 0 -");
    check("read 5 0 0404000700000000 2:0:0 -", "1 0");
}

#[test]
fn frames() {
    check("frame 5 0 01040005aa112233", "0 260 1 8");
    check("frame 4 0 01040005aa112233", "1");
    check("frame 5 0 01040005aa1122", "1");
    check("frame 5 1 0001040004", "0 260 0 4");
    check("frame 5 2 0001040004", "1");
    check("frame 5 5 0001040004", "1");
    check("frame 5 18446744073709551615 0001040004", "1");
}

#[test]
fn packets_and_headers_at_their_limits() {
    // One field of 65,532 bytes after a header of 3 bytes.
    let message = bytes(65_528, 1);
    let field = format!("0204fffc{message}");
    check(
        &format!("read 5 3 000000{field} - -"),
        &format!("0 NtsCookie:516:3:65528:65532:u:{message} - 0 -"),
    );
    check(&format!("read 5 4 00000000{field} - -"), "7 0");
    check(&format!("survey 5 3 000000{field}"), "0 0 -");
    check(&format!("survey 5 65537 00000000{field}"), "7 0 -");
    check("read 5 1 00 - -", "0 - - 0 -");
    check("read 5 2 00 - -", "6 0");
    check("survey 5 1 00", "0 0 -");
    check("survey 5 2 00", "6 0 -");
}

#[test]
fn contents() {
    check(
        "read 5 0 0304000500112233 - -",
        "0 NtsCookiePlaceholder:772:0:1:8:u:00 - 0 -",
    );
    check("read 5 0 0304000501000000 - -", "2 0");
    check(
        "read 5 0 f5ff00057f000000 - -",
        "0 DraftIdentification:62975:0:1:8:u:7f - 0 -",
    );
    check("read 5 1 00f5ff000580000000 - -", "4 1");
    check("read 5 0 f503000501000000 - -", "1 0");
    check(
        "read 5 0 f503000601000000 - -",
        "0 ReferenceIdRequest:62723:0:2:8:u:0100 - 0 -",
    );
    // The survey looks at none of these.
    check("survey 5 0 0304000501000000", "0 0 -");
}

#[test]
fn message_bytes() {
    // The padding of V5 is no part of a message. In V4 there is none.
    check(
        "read 5 0 0204000511223344 - -",
        "0 NtsCookie:516:0:1:8:u:11 - 0 -",
    );
    check(
        &format!("read 4 0 0204000811223344{} - -", bytes(24, 0x55)),
        "0 NtsCookie:516:0:4:8:u:11223344 - 24 -",
    );
    // The zeros of a text are part of it.
    check(
        "read 5 0 f5ff000864726100 - -",
        "0 DraftIdentification:62975:0:4:8:u:64726100 - 0 -",
    );
    // A marker has the message of its sealed field, with what follows the ciphertext.
    check(
        "read 5 0 0404000900000000aa112233 0:0:0 -",
        "5 InvalidNtsEncryptedField:1028:0:5:12:u:00000000aa - 0 -",
    );
    // Two fields at one offset, of the packet and of the plaintext buffer.
    check(
        "read 5 0 02040006112233440404000800000000 2:0:8 02040006aabbccdd",
        "0 NtsCookie:516:0:2:8:a:1122 NtsCookie:516:0:2:8:e:aabb 0 -",
    );
}

#[test]
fn longest_inner_fields() {
    // Each sealed field names the one plaintext, whose field is as long as can be.
    let message = bytes(65_528, 0xC1);
    let read = |sealed: usize| {
        let packet = "0404000800000000".repeat(sealed);
        let results = vec!["2:0:65532"; sealed].join(",");
        answer(format!("read 5 0 {packet} {results} 0204fffc{message}").as_bytes())
    };
    let entry = format!("NtsCookie:516:0:65528:65532:e:{message}");
    let inner = vec![entry; 128].join(",");
    assert!(read(128) == format!("0 - {inner} 0 -"));
    assert!(read(129) == "8 1024");
}

/// So many plain fields of four bytes.
fn plain(count: usize) -> String {
    "01040004".repeat(count)
}

/// So many sealed fields of eight bytes.
fn sealed(count: usize) -> String {
    "0404000800000000".repeat(count)
}

/// A case that reads so many sealed fields, each with the same result.
fn read_sealed(count: usize, result: &str) -> String {
    let results = vec![result; count].join(",");
    format!("read 5 0 {} {results} -", sealed(count))
}

#[test]
fn last_outer_item_and_one_more() {
    let entry = |place| format!("UniqueIdentifier:260:{}:0:4:u:-", 4 * place);
    for count in [65, 128] {
        let items: Vec<String> = (0..count).map(entry).collect();
        check(
            &format!("read 5 0 {} - -", plain(count)),
            &format!("0 {} - 0 -", items.join(",")),
        );
    }
    check(&format!("read 5 0 {} - -", plain(129)), "8 512");
    check_start(&read_sealed(65, "0:0:0"), "5 InvalidNtsEncryptedField");
    check_start(&read_sealed(128, "0:0:0"), "5 InvalidNtsEncryptedField");
    check(&read_sealed(129, "0:0:0"), "8 1024");
    // A field and a marker are items alike.
    let both = format!("{}{}", plain(127), sealed(2));
    check(&format!("read 5 0 {both} 0:0:0,1:0:0 -"), "8 516");
    // What is opened is none.
    check(&read_sealed(129, "2:0:0"), "0 - - 0 -");
    // The frame, the contents and the result come before the count.
    let fields = plain(128);
    check(&format!("read 5 0 {fields}0304000501 - -"), "1 512");
    check(&format!("read 5 0 {fields}0304000501000000 - -"), "2 512");
    check(&format!("read 5 0 {fields}{} - -", sealed(1)), "9 512");
    check(&format!("read 5 0 {fields}{} 4:0:0 -", sealed(1)), "10 512");
    check(&format!("read 5 0 {fields}{} 1:0:0 -", sealed(1)), "8 512");
}

#[test]
fn last_inner_field_and_one_more() {
    for count in [65, 128] {
        let read = format!("read 5 0 {} 2:0:{}", sealed(1), 4 * count);
        check_start(
            &format!("{read} {}", plain(count)),
            "0 - UniqueIdentifier:260:0:0:4:e:-,",
        );
    }
    let read = format!("read 5 0 {} 2:0:516", sealed(1));
    check(&format!("{read} {}", plain(129)), "8 0");
    // Its contents come before the count.
    let faulty = format!("{}0304000501000000", plain(128));
    check(&format!("read 5 0 {} 2:0:520 {faulty}", sealed(1)), "2 0");
    // All opened fields of a packet share the table.
    let twice = format!("{} 2:0:512,2:0:4 {}", sealed(2), plain(128));
    check(&format!("read 5 0 {twice}"), "8 8");
    let other = format!("{} 2:0:512,1:0:4 {}", sealed(2), plain(128));
    check_start(&format!("read 5 0 {other}"), "5 InvalidNts");
}

#[test]
fn last_entry_of_a_survey_and_one_more() {
    let survey = |count| format!("survey 5 0 {}", sealed(count));
    let entry = |place: usize| {
        let (start, parts) = (8 * place, 8 * place + 8);
        format!("{parts}:0:{parts}:0:{start}")
    };
    let entries = |count| (0..count).map(entry).collect::<Vec<_>>().join(",");
    check(&survey(65), &format!("0 0 {}", entries(65)));
    check(&survey(128), &format!("0 0 {}", entries(128)));
    check(&survey(129), &format!("8 1024 {}", entries(128)));
    // A wrong length comes before the count, and fields that are not sealed do not count.
    check_start(&format!("{}04040004", survey(128)), "1 1024 8:0");
    let plain = plain(129);
    check_start(&format!("{}{plain}", survey(128)), "0 0 8:0:8:0:0,");
}

#[test]
fn results_and_plaintexts() {
    let read = |result: &str, answer: &str| {
        check(
            &format!("read 5 0 0404000800000000 {result} 01040004"),
            answer,
        );
    };
    read("2:0:4", "0 - UniqueIdentifier:260:0:0:4:e:- 0 -");
    read("3:0:4", "0 - UniqueIdentifier:260:0:0:4:e:- 0 0");
    read("2:4:0", "0 - - 0 -");
    read("2:5:0", "10 0");
    read("2:1:4", "10 0");
    read("3:18446744073709551615:1", "10 0");
    read("4:0:4", "10 0");
    let marker = "InvalidNtsEncryptedField:1028:0:4:8:u:00000000";
    read("1:5:5", &format!("5 {marker} - 0 -"));
    read("2:0:3", "1 0");
    let inside = "0404000800000000";
    check(&format!("read 5 0 {inside} 2:0:8 {inside}"), "3 0");
    // A plaintext has at most 65,535 bytes, whatever the buffer holds.
    let plain = format!("{}00000004", bytes(65_536, 0));
    check(
        &format!("read 5 0 {inside} 2:65536:4 {plain}"),
        "0 - Unknown:0:65536:0:4:e:- 0 -",
    );
    check(&format!("read 5 0 {inside} 2:0:65535 {plain}"), "1 0");
    check(&format!("read 5 0 {inside} 2:0:65536 {plain}"), "10 0");
}

#[test]
fn cookie_is_that_of_the_last_opened_field() {
    let packet = "0404000800000000".repeat(2);
    let read = |results: &str, answer: &str| {
        check(&format!("read 5 0 {packet} {results} -"), answer);
    };
    read("2:0:0,3:0:0", "0 - - 0 1");
    read("3:0:0,2:0:0", "0 - - 0 -");
    let marker = "InvalidNtsEncryptedField:1028:8:4:8:u:00000000";
    read("3:0:0,0:0:0", &format!("5 {marker} - 0 -"));
}

#[test]
fn order_of_the_tests_of_a_sealed_field() {
    // Its inner lengths come before its result, and an inner frame before 3.
    check("read 5 0 04040004 - -", "1 0");
    check("read 5 0 0404000800000000 2:0:4 04040003", "1 0");
    // Its own offset is told, not that of the inner field.
    check(
        "read 5 0 010400040404000800000000 2:0:8 0304000501000000",
        "2 4",
    );
}

#[test]
fn entries_of_the_survey() {
    check("survey 5 0 0404000900010000aa000000", "1 0 -");
    check("survey 5 0 0404000c00010000aa000000", "0 0 8:1:12:0:0");
    let sealed = "0404000f00020003aabb0000010203ff";
    check(&format!("survey 5 2 0000{sealed}"), "0 0 10:2:14:3:2");
    check(&format!("survey 5 0 {sealed}0404000400"), "1 16 8:2:12:3:0");
}
