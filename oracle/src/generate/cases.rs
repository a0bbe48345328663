//! The cases by their names, each with what makes it.

use super::random::Random;
use super::{header5, header34, judge, leaves, mac, read, reading, requests, responses, write};
use std::io::{Result, Write};

/// The cases of one name.
pub struct Generator {
    pub name: &'static str,
    /// Its share among the random cases of several names.
    pub weight: usize,
    pub random: fn(&mut Random) -> String,
    pub exhaustive: fn(&mut Random, &mut dyn Write) -> Result<()>,
}

pub const fn generator(
    name: &'static str,
    weight: usize,
    random: fn(&mut Random) -> String,
    exhaustive: fn(&mut Random, &mut dyn Write) -> Result<()>,
) -> Generator {
    Generator {
        name,
        weight,
        random,
        exhaustive,
    }
}

/// Every case of docs/REPLAY.md.
pub const CASES: [Generator; 22] = [
    generator("round", 1, leaves::round, leaves::all_rounds),
    generator("kind", 2, leaves::kind, leaves::all_kinds),
    generator("frame", 10, leaves::frame, leaves::all_frames),
    generator("mac-read", 2, mac::read, mac::all_reads),
    generator("mac-write", 4, mac::write, mac::all_writes),
    generator("request-new", 3, requests::new, requests::all_new),
    generator("request-read", 2, requests::read, requests::all_reads),
    generator("request-write", 4, requests::write, requests::all_writes),
    generator("response-new", 2, responses::new, responses::all_new),
    generator("response-cut", 2, responses::cut, responses::all_cuts),
    generator("response-read", 1, responses::read, responses::all_reads),
    generator("response-write", 4, responses::write, responses::all_writes),
    generator("read", 60, read::read, read::all_reads),
    generator("survey", 20, read::survey, read::all_surveys),
    generator("judge", 25, judge::judge, judge::all_judgements),
    generator("write", 50, write::write, write::all_writes),
    generator("header5-read", 6, header5::read, header5::all_reads),
    generator("header5-write", 4, header5::write, header5::all_writes),
    generator("reading", 2, reading::reading, reading::all_readings),
    generator("header34-read", 6, header34::read, header34::all_reads),
    generator("header34-write", 4, header34::write, header34::all_writes),
    generator("reading34", 2, reading::reading34, reading::all_readings34),
];
