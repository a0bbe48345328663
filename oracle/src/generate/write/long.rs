//! Cases for the writer with long fields, long seals and long outputs.

use super::{Case, alone, seal};
use crate::format::hex;
use crate::generate::random::Random;
use std::io::{Result, Write};

/// A field near the longest that can be written, in an output near the longest.
pub fn write(random: &mut Random) -> String {
    let length = random.between(65_490, 65_535);
    let field = match random.below(12) {
        // Lengths that are given as a number keep the line short.
        0..8 => long_by_number(random.below(3), length),
        8 => format!("padding:{}", random.pick(&[65_540, 70_000, usize::MAX])),
        _ => {
            let kind = random.pick(&BY_BYTES);
            long_by_bytes(random, kind, length)
        }
    };
    let version = random.version();
    let list = random.below(3);
    let case = alone(version, &field, list);
    let less = random.pick(&[0, 0, 1]);
    long_line(random, &case, less)
}

/// A kind whose length is given as a number.
fn long_by_number(kind: usize, length: usize) -> String {
    match kind {
        0 => format!("placeholder:{length}"),
        1 => format!("padding:{}", length + 4),
        _ => format!("request:{}:7", length / 4 * 4),
    }
}

/// The kinds whose data are given as bytes.
const BY_BYTES: [&str; 5] = ["unknown:1", "uid", "cookie", "draft", "response"];

fn long_by_bytes(random: &mut Random, kind: &str, length: usize) -> String {
    let mut data = random.bytes(length);
    data.iter_mut().for_each(|byte| *byte &= 0x7F);
    format!("{kind}:{}", hex(&data))
}

/// The line for a case, with the room that it needs or with less, but never
/// more than an output has.
fn long_line(random: &mut Random, case: &Case, less: usize) -> String {
    let more = random.pick(&[0, 1, 16]);
    let (ciphertext, needed) = case.sizes(4, |plaintext| plaintext + more);
    let room = random.filling(needed.min(65_535) - less);
    let seal = seal(random, 4, ciphertext);
    case.line(&seal, &format!("0 {}", hex(&room)))
}

/// Long fields, long seals, long plaintexts, and outputs of which not every byte
/// counts.
pub fn all_writes(random: &mut Random, output: &mut dyn Write) -> Result<()> {
    all_long_fields(random, output)?;
    all_long_seals(random, output)?;
    all_long_plaintexts(random, output)?;
    all_long_outputs(random, output)
}

/// Each kind, with data of the lengths around the longest that fit.
fn all_long_fields(random: &mut Random, output: &mut dyn Write) -> Result<()> {
    for version in [4, 5] {
        for length in (65_522..=65_533).chain([65_535]) {
            for kind in 0..3 {
                let field = long_by_number(kind, length);
                let case = alone(version, &field, 2);
                writeln!(output, "{}", long_line(random, &case, 0))?;
            }
        }
        for length in [65_528, 65_529, 65_531, 65_532] {
            for kind in BY_BYTES {
                let field = long_by_bytes(random, kind, length);
                let case = alone(version, &field, 2);
                writeln!(output, "{}", long_line(random, &case, 0))?;
            }
        }
    }
    Ok(())
}

/// Nonces and ciphertexts around the longest for which an output has room.
fn all_long_seals(random: &mut Random, output: &mut dyn Write) -> Result<()> {
    let case = alone(5, "uid:-", 1);
    for length in [65_519, 65_520, 65_521, 65_524, 65_525, 65_536] {
        for [nonce, ciphertext] in [[length, 4], [0, length], [4, length]] {
            let room = random.filling(65_535);
            let seal = seal(random, nonce, ciphertext);
            writeln!(output, "{}", case.line(&seal, &format!("0 {}", hex(&room))))?;
        }
    }
    Ok(())
}

/// Plaintexts around the longest for which there is room, with a short
/// ciphertext; fields after them tell where the room ends.
fn all_long_plaintexts(random: &mut Random, output: &mut dyn Write) -> Result<()> {
    for version in [4, 5] {
        for fields in [
            "placeholder:65520,uid:01020304",
            "placeholder:65520,uid:01020304,marker",
            "placeholder:65524,uid:-",
            "placeholder:65524,uid:-,uid:-",
            "placeholder:65524,uid:-,uid:-,marker",
            "placeholder:65528,marker,uid:-",
            "placeholder:65528,uid:-,marker",
        ] {
            let room = hex(&random.filling(32));
            let start = format!("write {version} 1 0102 030405 0 {room}");
            writeln!(output, "{start} - {fields} uid:aa")?;
            writeln!(output, "{start} uid:- {fields} -")?;
        }
    }
    Ok(())
}

/// Starts around the last byte that counts, and behind it, with every reason to
/// refuse and with none.
fn all_long_outputs(random: &mut Random, output: &mut dyn Write) -> Result<()> {
    let room = hex(&random.filling(70_000));
    let lists = [
        "- - -",
        "- - uid:-",
        "- - marker",
        "marker - -",
        "- uid:- -",
        "uid:aa - uid:bb",
    ];
    for fields in lists {
        for at in [
            65_499, 65_500, 65_523, 65_524, 65_531, 65_532, 65_535, 65_536, 66_000, 70_001,
        ] {
            writeln!(output, "write 5 1 - 01020304 {at} {room} {fields}")?;
        }
        for at in [65_535, 66_000] {
            writeln!(output, "write 4 0 - 01020304 {at} {room} {fields}")?;
        }
    }
    Ok(())
}
