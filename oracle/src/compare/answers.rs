//! The answers to one case, and what they are worth beside each other.

use crate::packet::answer::Answer;

/// Whose answers are held against the crate's.
#[derive(Copy, Clone, PartialEq, Eq)]
pub enum AnswersOf {
    /// A port's: it numbers refused writes, and answers outside the domain too.
    Port,
    /// An oracle's own, of another machine perhaps: every line is the same.
    Oracle,
}

#[derive(Copy, Clone, PartialEq, Eq)]
pub enum Verdict {
    /// As the crate answers; of a refused write, as the rules number it too.
    Equal,
    /// Outside the domain, and as the rules answer.
    ByTheRules,
    Differs,
}

/// The crate's answer to a case, that of the model of the rules, and the one
/// that is held to them.
pub struct Answers<'a> {
    pub of_crate: Answer,
    pub of_rules: String,
    pub other: &'a [u8],
}

impl Answers<'_> {
    pub fn verdict(&self, whose: AnswersOf) -> Verdict {
        let by_crate = self.of_crate.to_string().as_bytes() == self.other;
        let by_rules = self.of_rules.as_bytes() == self.other;
        let (agrees, meant) = match (&self.of_crate, whose) {
            (Answer::Panic(_), _) => (false, Verdict::Equal),
            (Answer::Outside(_), AnswersOf::Port) => (by_rules, Verdict::ByTheRules),
            (Answer::Outside(_), AnswersOf::Oracle) => (by_crate, Verdict::ByTheRules),
            (Answer::Refused(_), AnswersOf::Port) => {
                (by_rules && self.model_agrees(), Verdict::Equal)
            }
            _ => (by_crate, Verdict::Equal),
        };
        if agrees { meant } else { Verdict::Differs }
    }

    /// Whether the model says what the crate says. Outside the domain the crate
    /// says nothing, and of a refused write only that and the output.
    pub fn model_agrees(&self) -> bool {
        match &self.of_crate {
            Answer::Outside(_) => true,
            Answer::Refused(output) => {
                let parts = self.of_rules.split_once(' ');
                parts.is_some_and(|(number, left)| is_of_a_write(number) && left == output)
            }
            answer => answer.to_string() == self.of_rules,
        }
    }

    /// The name of the answer in a table, and a number to order it by. A refused
    /// write is named by the number that the port gives it.
    pub fn label(&self) -> (u16, String) {
        match &self.of_crate {
            Answer::Number(number, _) => (*number, number.to_string()),
            Answer::Refused(_) => {
                let number = self.other.split(|b| *b == b' ').next().unwrap_or_default();
                let number = String::from_utf8_lossy(number);
                let number = number.chars().take(8).collect::<String>();
                (100, format!("refused, port: {number}"))
            }
            Answer::Outside(reason) => (101, format!("outside: {}", reason.name())),
            other => (102, other.to_string()),
        }
    }
}

/// Whether a number is one with which a write is refused.
fn is_of_a_write(number: &str) -> bool {
    matches!(number, "15" | "16" | "17" | "18")
}

#[cfg(test)]
mod tests {
    use super::{Answers, AnswersOf, Verdict};
    use crate::packet::answer::Answer;
    use crate::packet::answer::domain::Outside;

    fn answers<'a>(of_crate: Answer, of_rules: &str, other: &'a str) -> Answers<'a> {
        Answers {
            of_crate,
            of_rules: of_rules.to_string(),
            other: other.as_bytes(),
        }
    }

    fn is(answers: &Answers, verdict: Verdict, model_agrees: bool) -> bool {
        answers.verdict(AnswersOf::Port) == verdict && answers.model_agrees() == model_agrees
    }

    #[test]
    fn inside_the_domain_the_crate_decides() {
        let four = || Answer::accepted(4);
        assert!(is(&answers(four(), "0 4", "0 4"), Verdict::Equal, true));
        assert!(is(&answers(four(), "0 4", "0 8"), Verdict::Differs, true));
        // A model that is wrong shows, whether the port goes with it or not.
        assert!(is(&answers(four(), "0 8", "0 4"), Verdict::Equal, false));
        assert!(is(&answers(four(), "0 8", "0 8"), Verdict::Differs, false));
    }

    #[test]
    fn outside_the_domain_the_rules_decide() {
        let outside = || Answer::Outside(Outside::HeaderPastEnd);
        let by_the_rules = Verdict::ByTheRules;
        assert!(is(&answers(outside(), "6 0", "6 0"), by_the_rules, true));
        assert!(is(
            &answers(outside(), "6 0", "7 0"),
            Verdict::Differs,
            true
        ));
        let own = answers(outside(), "6 0", "outside");
        assert!(own.verdict(AnswersOf::Oracle) == by_the_rules);
        assert!(is(&own, Verdict::Differs, true));
        let other = answers(outside(), "6 0", "6 0");
        assert!(other.verdict(AnswersOf::Oracle) == Verdict::Differs);
    }

    #[test]
    fn refused_write_has_the_number_of_the_rules() {
        let refused = || Answer::Refused("aa".to_string());
        assert!(is(
            &answers(refused(), "16 aa", "16 aa"),
            Verdict::Equal,
            true
        ));
        assert!(is(
            &answers(refused(), "16 aa", "18 aa"),
            Verdict::Differs,
            true
        ));
        assert!(is(
            &answers(refused(), "16 aa", "16 ab"),
            Verdict::Differs,
            true
        ));
        // The rules may neither accept it, nor leave another output.
        assert!(is(
            &answers(refused(), "0 1 ab", "0 1 ab"),
            Verdict::Differs,
            false
        ));
        assert!(is(
            &answers(refused(), "16 ab", "16 ab"),
            Verdict::Differs,
            false
        ));
    }

    #[test]
    fn panic_of_the_crate_equals_nothing() {
        let panic = answers(Answer::Panic("panic"), "panic", "panic");
        assert!(is(&panic, Verdict::Differs, true));
    }
}
