//! Lines that are no case, whatever names a program knows.

use super::cases::CASES;
use super::random::Random;
use std::io::{Result, Write};

/// Spoils a good case. Those of `judge` are not drawn, so that the lines that were drawn before it came stay as they are;
/// its lines that are no case stand in LINES and in list/by-hand.txt.
pub fn line(random: &mut Random) -> String {
    let drawn: Vec<_> = CASES.iter().filter(|case| case.name != "judge").collect();
    let generator = drawn[random.below(drawn.len())];
    let good = (generator.random)(random);
    let (but_last, _) = good.rsplit_once(' ').unwrap_or_default();
    match random.below(7) {
        0 => format!("{good} 0"),
        1 => format!("{good} "),
        2 => but_last.to_string(),
        3 => good.replacen(' ', "  ", 1),
        4 => good.to_uppercase(),
        5 => format!("{but_last} 0X"),
        _ => format!(" {good}"),
    }
}

/// One line for each way to be no case, an empty one, two with too many entries,
/// and one that is too long.
pub fn all_lines(_: &mut Random, output: &mut dyn Write) -> Result<()> {
    for line in LINES {
        writeln!(output, "{line}")?;
    }
    let entries = vec!["marker"; 16_384].join(",");
    writeln!(output, "write 5 1 - - 0 - marker - {entries}")?;
    writeln!(output, "judge 5 0 - - {}", vec!["4"; 16_385].join(","))?;
    writeln!(output, "mac-read {}", "00".repeat(600_000))
}

const LINES: [&str; 53] = [
    "",
    " ",
    "?",
    "-",
    "rounds 1",
    "Round 1",
    "round",
    "round ",
    "round -",
    "round 1 ",
    "round 1 1",
    "round 01",
    "round 00",
    "round +1",
    "round -1",
    "round 1.0",
    "round 0x1",
    "round 65536",
    "round 99999999999999999999",
    "kind 3 260",
    "kind 6 260",
    "kind 04 260",
    "kind 5 65536",
    "frame 5 0",
    "frame 5 0 0",
    "frame 5 0 0A",
    "frame 5 0 0g",
    "frame 5 - 00",
    "mac-read 000",
    "mac-write 4294967296 - 0 -",
    "read 5 0 - 1:0 -",
    "read 5 0 - 1:0:0, -",
    "read 5 0 - , -",
    "judge 3 0 - - -",
    "judge 5 0 - -",
    "judge 5 0 - - - -",
    "judge 5 0 - 0:4 -",
    "judge 5 0 - 0, 4",
    "judge 5 0 - ,0 4",
    "judge 5 0 - 0 04",
    "judge 5 0 - 18446744073709551616 4",
    "write 5 2 - - 0 - - - -",
    "write 5 1 - - 0 - uid - -",
    "write 5 1 - - 0 - marker:0 - -",
    "header5-write 0 - 3 3 0 0 0 0 0 0 0 0 0 0 0 0 0 0",
    "header5-write 0 - 0 3 0 0 -0 0 0 0 0 0 0 0 0 0 0 0",
    "header5-write 0 - 0 3 0 0 -01 0 0 0 0 0 0 0 0 0 0 0",
    "header5-write 0 - 0 3 0 0 +1 0 0 0 0 0 0 0 0 0 0 0",
    "header34-read",
    "header34-write 0 - 0 4 3 0 0 0 0 0 0 0 0 0",
    "header34-write 0 - 0 4 3 0 0 -0 0 0 0 0 0 0 0",
    "header34-write 0 - 0 4 256 0 0 0 0 0 0 0 0 0 0",
    "reading34 4294967296 0",
];
