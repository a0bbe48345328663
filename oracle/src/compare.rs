//! Holds the answers of the port against those of the crate, and to the rules
//! where the crate has none.
//!
//! Each case is answered here, by the crate and by the model of the rules, so
//! that both files are read once and side by side. What is equal docs/REPLAY.md
//! says, in "Answers".

mod answers;

pub use answers::AnswersOf;

use crate::lines::Lines;
use crate::packet::answer::answer;
use crate::rules;
use answers::{Answers, Verdict};
use std::collections::BTreeMap;
use std::io::{BufRead, Result};

/// Cases that are at fault: how many, and the smallest one with its answers.
#[derive(Default)]
struct Faults {
    count: u64,
    smallest: Option<Fault>,
}

struct Fault {
    case: Vec<u8>,
    of_crate: String,
    of_rules: String,
    other: Vec<u8>,
}

/// What a comparison found.
#[derive(Default)]
pub struct Report {
    /// For each name, how often each answer was given.
    table: BTreeMap<(&'static str, u16, String), u64>,
    equal: u64,
    by_the_rules: u64,
    /// The port differs from the crate, or from the rules.
    differ: Faults,
    /// The model of the rules differs from the crate.
    of_model: Faults,
    /// Lines that one file has and the other has not.
    cases_left: u64,
    answers_left: u64,
}

/// Compares two files of which one holds the cases, the other the answers.
pub fn compare(cases: impl BufRead, answers: impl BufRead, whose: AnswersOf) -> Result<Report> {
    let mut report = Report::default();
    let mut cases = Lines::of(cases);
    let mut answers = Lines::of(answers);
    while let Some(case) = cases.next()? {
        let Some(other) = answers.next()? else {
            report.cases_left = 1 + cases.count_rest()?;
            return Ok(report);
        };
        report.hold(case, other, whose);
    }
    report.answers_left = answers.count_rest()?;
    Ok(report)
}

impl Report {
    fn hold(&mut self, case: &[u8], other: &[u8], whose: AnswersOf) {
        let (name, of_crate) = answer(case);
        let of_rules = rules::answer(case);
        let answers = Answers {
            of_crate,
            of_rules,
            other,
        };
        let (rank, label) = answers.label();
        *self.table.entry((name, rank, label)).or_default() += 1;
        match answers.verdict(whose) {
            Verdict::Equal => self.equal += 1,
            Verdict::ByTheRules => self.by_the_rules += 1,
            Verdict::Differs => self.differ.add(case, &answers),
        }
        if !answers.model_agrees() {
            self.of_model.add(case, &answers);
        }
    }

    /// Whether at least one case was held against the crate's answer, all of
    /// them agree and neither file has lines of its own.
    pub fn is_good(&self) -> bool {
        let faults = self.differ.count + self.of_model.count;
        self.equal != 0 && faults == 0 && self.cases_left == 0 && self.answers_left == 0
    }

    pub fn print(&self) {
        println!("{:<16}{:<32}{:>10}", "case", "the Rust's answer", "count");
        for ((name, _, label), count) in &self.table {
            println!("{name:<16}{label:<32}{count:>10}");
        }
        self.differ.print("smallest case that differs:");
        self.of_model.print(
            "smallest case inside the domain that the model of the rules answers otherwise:",
        );
        if self.cases_left + self.answers_left != 0 {
            let (cases, answers) = (self.cases_left, self.answers_left);
            println!("not paired: {cases} cases without answer, {answers} answers without case");
        }
        let (equal, by_the_rules) = (self.equal, self.by_the_rules);
        let (differ, of_model) = (self.differ.count, self.of_model.count);
        if equal + differ == 0 {
            println!("no case was held against the Rust's answer");
        }
        println!(
            "compared {} cases: {equal} equal, {by_the_rules} outside, by the rules, {differ} differ; \
             {of_model} faults of the model",
            equal + by_the_rules + differ
        );
    }
}

impl Faults {
    fn add(&mut self, case: &[u8], answers: &Answers) {
        self.count += 1;
        let smallest = self.smallest.as_ref();
        if smallest.is_none_or(|smallest| case.len() < smallest.case.len()) {
            self.smallest = Some(Fault {
                case: case.to_vec(),
                of_crate: answers.of_crate.to_string(),
                of_rules: answers.of_rules.clone(),
                other: answers.other.to_vec(),
            });
        }
    }

    fn print(&self, title: &str) {
        let Some(smallest) = &self.smallest else {
            return;
        };
        println!("{title}");
        println!("  case:  {}", String::from_utf8_lossy(&smallest.case));
        println!("  Rust:  {}", smallest.of_crate);
        println!("  rules: {}", smallest.of_rules);
        println!("  port:  {}", String::from_utf8_lossy(&smallest.other));
    }
}

#[cfg(test)]
mod tests {
    use super::{AnswersOf, Report, compare};
    use crate::{generate, rules};

    fn compared(cases: &str, answers: &str) -> Report {
        let report = compare(cases.as_bytes(), answers.as_bytes(), AnswersOf::Port);
        report.expect("memory does not fail")
    }

    #[test]
    fn equal_answers_are_good() {
        let report = compared("round 1\nround 5\n", "0 4\n0 8\n");
        assert!(report.is_good());
        assert_eq!(report.equal, 2);
    }

    #[test]
    fn smallest_difference_is_kept() {
        let report = compared("round 100\nround 5\nround 6\n", "0 4\n0 4\n0 4\n");
        assert!(!report.is_good());
        assert_eq!(report.differ.count, 3);
        let smallest = report.differ.smallest.expect("a difference");
        assert_eq!(smallest.case, b"round 5");
        assert_eq!(report.of_model.count, 0);
    }

    #[test]
    fn refused_write_keeps_its_output() {
        assert!(compared("mac-write 1 - 0 aabb\n", "16 aabb\n").is_good());
        assert!(!compared("mac-write 1 - 0 aabb\n", "16 aabc\n").is_good());
        assert!(!compared("mac-write 1 - 0 aabb\n", "18 aabb\n").is_good());
        assert!(!compared("mac-write 1 - 0 aabb\n", "refused aabb\n").is_good());
    }

    #[test]
    fn second_stage_refuses_after_the_bytes_of_the_first() {
        let case = "write 5 1 - - 0 0000000000000000000000000000000000 uid:aa - -\n";
        assert!(compared(case, "16 01040010aa000000000000000000000000\n").is_good());
        assert!(!compared(case, "16 0000000000000000000000000000000000\n").is_good());
        let marker = "write 5 1 - - 0 0000 marker - -\n";
        assert!(compared(marker, "18 0000\n").is_good());
        assert!(!compared(marker, "16 0000\n").is_good());
    }

    #[test]
    fn message_bytes_are_compared() {
        let case = "read 5 0 01040006aabb1122 - -\n";
        let answer = |bytes| format!("0 UniqueIdentifier:260:0:2:8:u{bytes} - 0 -\n");
        assert!(compared(case, &answer(":aabb")).is_good());
        // A byte fewer, another byte, the padding too, no bytes, and no such part.
        for bytes in [":aa", ":aabc", ":aabb1122", ":-", ""] {
            assert!(!compared(case, &answer(bytes)).is_good());
        }
    }

    #[test]
    fn outside_is_held_to_the_rules() {
        let cases = "read 5 1 - - -\nround 0\n";
        let report = compared(cases, "6 0\n0 0\n");
        assert!(report.is_good());
        assert_eq!((report.equal, report.by_the_rules), (1, 1));
        let report = compared(cases, "7 0\n0 0\n");
        assert!(!report.is_good());
        assert_eq!(
            report.differ.smallest.expect("a difference").of_rules,
            "6 0"
        );
    }

    #[test]
    fn rules_answer_as_the_crate_does_inside_the_domain() {
        let mut cases = Vec::new();
        generate::random_cases(2, 20_000, &[], &mut cases).expect("memory does not fail");
        let mut answers = String::new();
        for case in cases.split(|byte| *byte == b'\n') {
            answers.push_str(&rules::answer(case));
            answers.push('\n');
        }
        // Behind the last line feed is no line.
        answers.pop();
        let report = compare(&cases[..], answers.as_bytes(), AnswersOf::Port);
        let report = report.expect("memory does not fail");
        assert!(report.is_good());
        assert_eq!(report.equal + report.by_the_rules, 20_000);
    }

    #[test]
    fn missing_lines_and_no_lines_are_errors() {
        assert!(!compared("round 1\nround 5\n", "0 4\n").is_good());
        assert!(!compared("round 1\n", "0 4\n0 8\n").is_good());
        assert!(!compared("", "").is_good());
        assert!(!compared("read 5 1 - - -\n", "6 0\n").is_good());
    }
}
