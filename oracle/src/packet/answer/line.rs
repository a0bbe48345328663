//! The answer line of a case.

use super::domain::Outside;
use std::fmt::{Display, Formatter};

/// What the driver writes for a line.
#[derive(Debug, PartialEq, Eq)]
pub enum Answer {
    /// Document 01's number, and the words that follow it.
    Number(u16, String),
    /// A write that the crate refuses, and the output as the port has to leave
    /// it. The crate tells no numbers apart there.
    Refused(String),
    /// Whether a list is the cut of a packet.
    Verdict(bool),
    /// The case is outside the domain of comparison.
    Outside(Outside),
    /// The answer to an empty line.
    Empty,
    /// The line is no case.
    NotACase,
    /// The crate panics on a case inside the domain, or what it replies does
    /// not fit the chain of fields. No answer of a port equals this.
    Panic(&'static str),
}

impl Answer {
    pub fn number(number: u16) -> Self {
        Self::Number(number, String::new())
    }

    pub fn with(number: u16, rest: impl Display) -> Self {
        Self::Number(number, rest.to_string())
    }

    pub fn accepted(rest: impl Display) -> Self {
        Self::with(0, rest)
    }
}

impl Display for Answer {
    fn fmt(&self, f: &mut Formatter<'_>) -> std::fmt::Result {
        match self {
            Self::Number(number, rest) if rest.is_empty() => write!(f, "{number}"),
            Self::Number(number, rest) => write!(f, "{number} {rest}"),
            Self::Refused(output) => write!(f, "refused {output}"),
            Self::Verdict(is_cut) => f.write_str(if *is_cut { "yes" } else { "no" }),
            Self::Outside(_) => f.write_str("outside"),
            Self::Empty => Ok(()),
            Self::NotACase => f.write_str("?"),
            Self::Panic(what) => f.write_str(what),
        }
    }
}

/// Lets the answers be written with `?` on the tests of the domain.
impl From<Result<Answer, Outside>> for Answer {
    fn from(answer: Result<Answer, Outside>) -> Self {
        answer.unwrap_or_else(Answer::Outside)
    }
}
