//! How often each outcome occurs.

use std::collections::BTreeMap;
use std::fmt;

use crate::answer::{answer, Answer};
use crate::case::{Case, CaseKind};
use crate::reading;

/// Counts by the case's letter, the record that is refused, and the answer.
#[derive(Debug, Default)]
pub struct Outcomes {
    counts: BTreeMap<Outcome, usize>,
}

/// The number is 0 where the answer is none.
#[derive(Clone, Debug, PartialEq, Eq, PartialOrd, Ord)]
pub struct Outcome {
    pub letter: char,
    pub number: u8,
    pub words: String,
}

pub fn outcome(case: &Case) -> Outcome {
    let answer = answer(case);
    let number = match answer {
        Answer::Refused(number) => number,
        _ => 0,
    };
    let words = match number {
        1..=8 => format!("refused {number} for the {}", refused_record(case)),
        _ => answer.outcome(),
    };
    Outcome {
        letter: case.kind.letter(),
        number,
        words,
    }
}

/// Which record draws 1 to 8.
fn refused_record(case: &Case) -> &'static str {
    if reading::signature(&case.signature).is_err() {
        "signature"
    } else {
        case.kind.record_word()
    }
}

impl Outcomes {
    pub fn count(&mut self, case: &Case) {
        *self.counts.entry(outcome(case)).or_insert(0) += 1;
    }

    /// Those of `expected` that did not occur.
    pub fn missing(&self) -> Vec<String> {
        let occurred: Vec<String> = self.counts.keys().map(Outcome::to_string).collect();
        let mut missing = expected();
        missing.retain(|outcome| !occurred.contains(outcome));
        missing
    }
}

/// Every outcome that is possible. A signature has neither order nor rows nor
/// names, a group no order.
fn expected() -> Vec<String> {
    let mut expected = Vec::new();
    for kind in CaseKind::ALL {
        let letter = kind.letter();
        let record = kind.record_word();
        let answers: &[&str] = match kind {
            CaseKind::ReadRule | CaseKind::ReadGroup => &["ok"],
            CaseKind::Flatten => &["written"],
            CaseKind::Scope => &["global", "model"],
        };
        expected.extend(answers.iter().map(|words| format!("{letter} {words}")));
        for number in 1..=5 {
            expected.push(format!("{letter} refused {number} for the signature"));
        }
        for number in (1..=8).filter(|&number| record == "rule" || number != 6) {
            expected.push(format!("{letter} refused {number} for the {record}"));
        }
        let numbers = match kind {
            CaseKind::ReadRule | CaseKind::ReadGroup => 0..0,
            CaseKind::Flatten => 21..32,
            CaseKind::Scope => 41..44,
        };
        expected.extend(numbers.map(|number| format!("{letter} refused {number}")));
    }
    expected
}

impl fmt::Display for Outcome {
    fn fmt(&self, f: &mut fmt::Formatter<'_>) -> fmt::Result {
        write!(f, "{} {}", self.letter, self.words)
    }
}

impl fmt::Display for Outcomes {
    fn fmt(&self, f: &mut fmt::Formatter<'_>) -> fmt::Result {
        for (outcome, count) in &self.counts {
            writeln!(f, "{count:>8}  {outcome}")?;
        }
        Ok(())
    }
}
