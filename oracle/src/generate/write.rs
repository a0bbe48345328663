//! Cases for the writer.

mod long;

use super::fields::type_id;
use super::output::{all_outputs, output};
use super::random::Random;
use crate::format::{hex, list};
use crate::packet::answer::domain::MOST_FIELDS;
use crate::packet::answer::write::measure;
use std::io::{Result, Write};

/// The words of a case that say what is written.
struct Case {
    version: u8,
    has_cipher: bool,
    authenticated: Vec<String>,
    encrypted: Vec<String>,
    untrusted: Vec<String>,
}

impl Case {
    fn any(random: &mut Random) -> Self {
        let version = random.version();
        let sealed = !random.one_in(4);
        // A list to write may be longer than a table of the reader.
        let most = if random.one_in(150) {
            MOST_FIELDS + 12
        } else {
            3
        };
        Self {
            version,
            has_cipher: !random.one_in(if sealed { 25 } else { 2 }),
            authenticated: fields(random, if sealed { most } else { 0 }),
            encrypted: fields(random, if sealed { most } else { 0 }),
            untrusted: fields(random, most),
        }
    }

    /// The line of the case, with a seal and an output.
    fn line(&self, seal: &str, output: &str) -> String {
        format!(
            "write {} {} {seal} {output} {} {} {}",
            self.version,
            u8::from(self.has_cipher),
            list(&self.authenticated),
            list(&self.encrypted),
            list(&self.untrusted)
        )
    }

    /// The length of a ciphertext that goes with the plaintext, and the bytes
    /// that the Rust then writes in all. Where it writes none, small numbers.
    fn sizes(&self, nonce: usize, ciphertext: impl Fn(usize) -> usize) -> (usize, usize) {
        let Some(measure) = measure(&self.line("- -", "0 -")) else {
            return (ciphertext(8), 64);
        };
        let ciphertext = ciphertext(measure.plaintext);
        let seal = nonce.next_multiple_of(4) + ciphertext.next_multiple_of(4);
        let seal = if measure.has_seal { seal } else { 0 };
        (ciphertext, measure.frame + seal)
    }
}

pub fn write(random: &mut Random) -> String {
    if random.one_in(500) {
        return long::write(random);
    }
    let case = Case::any(random);
    let nonce = match random.below(3) {
        0 => random.below(21),
        _ => 16,
    };
    let more = random.pick(&[16, 16, 0, 0, 1, 2, 3, 5]);
    let too_short = random.one_in(60);
    let (ciphertext, needed) = case.sizes(nonce, |plaintext| {
        if too_short {
            plaintext / 2
        } else {
            plaintext + more
        }
    });
    // Long fields need long outputs, so most of them get too small a one.
    let needed = match needed {
        60_000.. if !random.one_in(20) => 64,
        _ => needed,
    };
    let output = output(random, needed);
    let seal = seal(random, nonce, ciphertext);
    case.line(&seal, &output)
}

/// The words NONCE and CIPHERTEXT.
fn seal(random: &mut Random, nonce: usize, ciphertext: usize) -> String {
    let nonce = hex(&random.bytes(nonce));
    format!("{nonce} {}", hex(&random.bytes(ciphertext)))
}

fn fields(random: &mut Random, most: usize) -> Vec<String> {
    let count = random.below(most + 1);
    (0..count).map(|_| field(random, count > 3)).collect()
}

/// Any field; a short one where there are many.
fn field(random: &mut Random, short: bool) -> String {
    let length = if short {
        random.below(5)
    } else {
        random.length()
    };
    let data = hex(&random.bytes(length));
    match random.below(40) {
        0..8 => format!("uid:{data}"),
        8..13 => format!("cookie:{data}"),
        13..17 => format!("placeholder:{length}"),
        17..23 => format!("unknown:{}:{data}", type_id(random)),
        23..27 => draft(random, length),
        27..30 => format!("padding:{}", 4 + length),
        30..34 => request(random, length),
        34..38 => format!("response:{data}"),
        38 if random.one_in(4) => "marker".to_string(),
        38 if random.one_in(6) => format!("padding:{}", random.below(4)),
        38 if random.one_in(3) => too_long(random),
        _ => format!("uid:{data}"),
    }
}

/// A field that is too long, or nearly so, in few words.
fn too_long(random: &mut Random) -> String {
    match random.below(4) {
        0 => format!("placeholder:{}", random.between(65_527, 65_535)),
        1 => format!("padding:{}", random.between(65_531, 65_537)),
        2 => format!("padding:{}", random.pick(&[70_000, usize::MAX])),
        _ => format!("request:{}:7", random.pick(&[65_528, 65_532])),
    }
}

/// Text below 128, once in a while not.
fn draft(random: &mut Random, length: usize) -> String {
    let mut text = random.bytes(length);
    if !random.one_in(40) {
        text.iter_mut().for_each(|byte| *byte &= 0x7F);
    }
    format!("draft:{}", hex(&text))
}

fn request(random: &mut Random, length: usize) -> String {
    let offset = random.below(65_536);
    if random.one_in(40) {
        return format!("request:{length}:{offset}");
    }
    format!("request:{}:{offset}", length.next_multiple_of(4).max(4))
}

/// A case that writes one field, which stands in the list of that number.
fn alone(version: u8, field: &str, list: usize) -> Case {
    let only = |place| {
        let count = usize::from(place == list);
        vec![field.to_string(); count]
    };
    Case {
        version,
        has_cipher: true,
        authenticated: only(0),
        encrypted: only(1),
        untrusted: only(2),
    }
}

/// One field of each kind and of every short length, in each place in which it
/// can stand, and seals of every short length; each with exactly the room that
/// it needs, with less and with more. Then the longest fields and outputs.
pub fn all_writes(random: &mut Random, output: &mut dyn Write) -> Result<()> {
    for version in [4, 5] {
        for length in 0..=36 {
            for field in kinds(random, length) {
                for case in places(version, &field) {
                    write_with_rooms(random, output, &case, [3, 1])?;
                }
            }
        }
        for nonce in 0..=9 {
            for more in 0..=9 {
                for case in places(version, "cookie:0102030405") {
                    write_with_rooms(random, output, &case, [nonce, more])?;
                }
            }
        }
    }
    write_edges(random, output)?;
    long::all_writes(random, output)
}

/// A field of each kind, with data of the given length.
fn kinds(random: &mut Random, length: usize) -> Vec<String> {
    let data = hex(&random.bytes(length));
    let mut text = random.bytes(length);
    text.iter_mut().for_each(|byte| *byte &= 0x7F);
    vec![
        format!("unknown:{}:{data}", type_id(random)),
        format!("uid:{data}"),
        format!("cookie:{data}"),
        format!("placeholder:{length}"),
        format!("draft:{}", hex(&text)),
        format!("padding:{}", length + 4),
        format!("request:{}:{}", 4 + 4 * length, random.below(65_536)),
        format!("response:{data}"),
    ]
}

/// The field alone in each list, and before another one that is not trusted.
fn places(version: u8, field: &str) -> Vec<Case> {
    let mut cases: Vec<Case> = [0, 1, 2, 2].map(|list| alone(version, field, list)).into();
    cases[3].untrusted.push("uid:-".to_string());
    cases
}

/// A case with each of four rooms. The two lengths are the nonce's, and by how
/// much the ciphertext is longer than the plaintext.
fn write_with_rooms(
    random: &mut Random,
    output: &mut dyn Write,
    case: &Case,
    [nonce, more]: [usize; 2],
) -> Result<()> {
    let (ciphertext, needed) = case.sizes(nonce, |plaintext| plaintext + more);
    for room in all_outputs(random, nonce % 3, needed) {
        let seal = seal(random, nonce, ciphertext);
        writeln!(output, "{}", case.line(&seal, &room))?;
    }
    Ok(())
}

/// No cipher, markers, nothing to write, and every reason to refuse before and
/// after another.
fn write_edges(random: &mut Random, output: &mut dyn Write) -> Result<()> {
    let odd = ["uid:aa", "marker", "padding:70000", "padding:3", "draft:80"];
    for version in [4, 5] {
        for cipher in [0, 1] {
            for at in [0, 8, 9, 100] {
                let start = format!("write {version} {cipher} - 0102 {at}");
                let room = hex(&random.filling(8));
                writeln!(output, "{start} {room} - - -")?;
                writeln!(output, "{start} - - - -")?;
                for first in odd {
                    for second in odd {
                        writeln!(output, "{start} {room} {first} {second} -")?;
                        writeln!(output, "{start} {room} - {first} {second}")?;
                        writeln!(output, "{start} {room} - - {first},{second}")?;
                    }
                }
            }
        }
    }
    Ok(())
}
