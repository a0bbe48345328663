//! Holds the binding crate against ntp-proto, both in one process.
//!
//! `tools/binding` builds it with the port's library linked in, and runs it: cases of docs/REPLAY.md are
//! drawn, answered through the binding, and compared with the crate's own answers. Where the binding's public
//! interface can't express a case, the library's own functions answer it.

// The header's file asks a crate `rand` for random cookies: it is this one.
extern crate self as rand;

#[path = "binding/answers.rs"]
mod answers;
#[path = "binding/contexts.rs"]
mod contexts;
#[path = "binding/header34.rs"]
mod header34;
#[path = "binding/raw.rs"]
mod raw;
#[path = "binding/read.rs"]
mod read;
#[path = "binding/write.rs"]
mod write;

// The answers of another oracle are not compared here.
#[allow(dead_code)]
mod compare;
mod format;
mod generate;
#[allow(dead_code)]
mod io;
mod keyset;
mod lines;
mod packet;
mod rules;
mod stand_ins;

pub use stand_ins::{
    NtpClock, NtpDuration, NtpLeapIndicator, NtpTimestamp, PollInterval, SystemSnapshot, random,
};

use answers::{Answering, Way};
use compare::AnswersOf;
use std::collections::BTreeMap;
use std::process::ExitCode;

/// The names of the cases that the binding answers.
const NAMES: [&str; 18] = [
    "mac-read",
    "mac-write",
    "header5-read",
    "header5-write",
    "reading",
    "header34-read",
    "header34-write",
    "reading34",
    "request-new",
    "request-read",
    "request-write",
    "response-new",
    "response-cut",
    "response-write",
    "read",
    "survey",
    "judge",
    "write",
];

fn main() -> ExitCode {
    // A panic of the crate is an answer; its message would only be noise.
    std::panic::set_hook(Box::new(|_| {}));
    let mut numbers = std::env::args().skip(1).map(|word| word.parse().ok());
    let (Some(Some(count)), Some(Some(seed))) = (numbers.next(), numbers.next()) else {
        eprintln!("use: binding COUNT SEED");
        return ExitCode::from(2);
    };
    let mut cases = Vec::new();
    generate::exhaustive_cases(&NAMES, &mut cases).expect("memory does not fail");
    generate::random_cases(seed, count, &NAMES, &mut cases).expect("memory does not fail");
    let mut answering = Answering::default();
    let mut answers = Vec::new();
    let mut ways = Ways::default();
    for case in cases.split(|byte| *byte == b'\n') {
        if !case.is_empty() {
            let answer = answering.answer(case);
            ways.add(case, answer.way);
            answers.extend(answer.text.into_bytes());
            answers.push(b'\n');
        }
    }
    let report = compare::compare(&cases[..], &answers[..], AnswersOf::Port);
    let report = report.expect("memory does not fail");
    report.print();
    ways.print();
    if report.is_good() {
        ExitCode::SUCCESS
    } else {
        ExitCode::FAILURE
    }
}

/// How many cases of each name were answered in which way.
#[derive(Default)]
struct Ways(BTreeMap<String, [u64; 2]>);

impl Ways {
    fn add(&mut self, case: &[u8], way: Way) {
        let name = case.split(|byte| *byte == b' ').next().unwrap_or_default();
        let name = String::from_utf8_lossy(name).into_owned();
        self.0.entry(name).or_default()[usize::from(way == Way::Raw)] += 1;
    }

    fn print(&self) {
        println!(
            "answered through the public interface, and by raw functions where that can't express a case:"
        );
        for (name, [public, raw]) in &self.0 {
            println!("{name:>16} {public:>9} {raw:>9}");
        }
        let all = |way: usize| self.0.values().map(|counts| counts[way]).sum::<u64>();
        println!("{:>16} {:>9} {:>9}", "all", all(0), all(1));
    }
}
