//! The oracle: ntp-proto's packet code behind the lines of docs/REPLAY.md.

#![forbid(unsafe_code)]

// The header's file asks a crate `rand` for random cookies: it is this one.
extern crate self as rand;

mod compare;
mod format;
mod generate;
#[allow(dead_code)]
mod io;
mod keyset;
mod lines;
mod packet;
mod rules;
#[cfg(test)]
mod samples;
mod stand_ins;

pub use stand_ins::{
    NtpClock, NtpDuration, NtpLeapIndicator, NtpTimestamp, PollInterval, SystemSnapshot, random,
};

use compare::AnswersOf;
use std::fs::File;
use std::io::{BufReader, BufWriter, Error, Result, Write, stdin, stdout};
use std::process::ExitCode;

const USE: &str = "use: oracle answer < CASES
     oracle rules < CASES
     oracle generate SEED COUNT [NAME..]
     oracle exhaustive [NAME..]
     oracle compare [--own] CASES ANSWERS";

fn main() -> ExitCode {
    // A panic of the crate is an answer; its message would only be noise.
    std::panic::set_hook(Box::new(|_| {}));
    let arguments: Vec<String> = std::env::args().skip(1).collect();
    let arguments: Vec<&str> = arguments.iter().map(String::as_str).collect();
    match run(&arguments) {
        Ok(true) => ExitCode::SUCCESS,
        Ok(false) => ExitCode::FAILURE,
        Err(error) => {
            eprintln!("oracle: {error}");
            ExitCode::from(2)
        }
    }
}

/// Runs a command. It succeeds unless it is a comparison that finds fault.
fn run(arguments: &[&str]) -> Result<bool> {
    match arguments {
        ["answer"] => answer(|case| packet::answer::answer(case).1.to_string()),
        ["rules"] => answer(rules::answer),
        ["generate", seed, count, names @ ..] => {
            let (Ok(seed), Ok(count)) = (seed.parse(), count.parse()) else {
                return Err(Error::other(USE));
            };
            let mut output = BufWriter::new(stdout().lock());
            generate::random_cases(seed, count, names, &mut output)?;
            output.flush().map(|()| true)
        }
        ["exhaustive", names @ ..] => {
            let mut output = BufWriter::new(stdout().lock());
            generate::exhaustive_cases(names, &mut output)?;
            output.flush().map(|()| true)
        }
        ["compare", "--own", cases, answers] => compare(cases, answers, AnswersOf::Oracle),
        ["compare", cases, answers] => compare(cases, answers, AnswersOf::Port),
        _ => Err(Error::other(USE)),
    }
}

/// Answers the cases of the standard input.
fn answer(answer_to: impl Fn(&[u8]) -> String) -> Result<bool> {
    let mut cases = lines::Lines::of(stdin().lock());
    let mut output = BufWriter::new(stdout().lock());
    while let Some(case) = cases.next()? {
        writeln!(output, "{}", answer_to(case))?;
    }
    output.flush().map(|()| true)
}

/// Compares two files and prints what was found.
fn compare(cases: &str, answers: &str, whose: AnswersOf) -> Result<bool> {
    let open = |name: &str| File::open(name).map_err(|e| Error::other(format!("{name}: {e}")));
    let cases = BufReader::new(open(cases)?);
    let answers = BufReader::new(open(answers)?);
    let report = compare::compare(cases, answers, whose)?;
    report.print();
    Ok(report.is_good())
}
