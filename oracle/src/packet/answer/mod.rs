//! The driver: answers each case of docs/REPLAY.md with the crate's own code.
//!
//! A module to a rule; every one of them reads the words of its case, tests
//! whether the case is inside the domain of comparison, and calls the crate.

use crate::format::{NotACase, Parsed, Words};
use std::panic::{AssertUnwindSafe, catch_unwind};

mod case;
mod chain;
pub mod domain;
mod header34;
mod header5;
mod judge;
mod leaves;
mod line;
mod lists;
mod mac;
mod numbers;
mod output;
mod read;
mod reading;
mod reference_ids;
mod script;
mod survey;
pub mod write;

pub use line::Answer;

/// Reads the words after a case's name and answers it.
type Rule = fn(&mut Words) -> Parsed<Answer>;

/// Every case by its name.
const RULES: [(&str, Rule); 22] = [
    ("round", leaves::round),
    ("kind", leaves::kind),
    ("frame", leaves::frame),
    ("mac-read", mac::read),
    ("mac-write", mac::write),
    ("request-new", reference_ids::request_new),
    ("request-read", reference_ids::request_read),
    ("request-write", reference_ids::request_write),
    ("response-new", reference_ids::response_new),
    ("response-cut", reference_ids::response_cut),
    ("response-read", reference_ids::response_read),
    ("response-write", reference_ids::response_write),
    ("read", read::read),
    ("survey", survey::survey),
    ("judge", judge::judge),
    ("write", write::write),
    ("header5-read", header5::read),
    ("header5-write", header5::write),
    ("reading", reading::reading),
    ("header34-read", header34::read),
    ("header34-write", header34::write),
    ("reading34", reading::reading34),
];

/// The name under which a line is counted, and the answer to it. The line comes
/// without its line feed.
pub fn answer(line: &[u8]) -> (&'static str, Answer) {
    const NO_CASE: (&str, Answer) = ("(no case)", Answer::NotACase);
    if line.is_empty() {
        return ("(empty line)", Answer::Empty);
    }
    let Ok((name, rule, mut words)) = find_rule(line) else {
        return NO_CASE;
    };
    match catch_unwind(AssertUnwindSafe(|| rule(&mut words))) {
        Ok(Ok(answer)) => (name, answer),
        Ok(Err(NotACase)) => NO_CASE,
        Err(_) => (name, Answer::Panic("panic")),
    }
}

/// The case's name, its rule and the words after the name.
fn find_rule(line: &[u8]) -> Parsed<(&'static str, Rule, Words<'_>)> {
    let mut words = Words::of(line)?;
    let called = words.word()?;
    let found = RULES.iter().find(|(name, _)| *name == called);
    let (name, rule) = found.ok_or(NotACase)?;
    Ok((name, *rule, words))
}
