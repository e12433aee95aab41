//! Holds the first miss against the second reading, and counts.

use super::entry::FirstMiss;
use super::reading::expected;
use super::tally::Tally;
use crate::matching::case::Case;
use crate::matching::comparison::{with_guard, GUARD, UNWRITTEN};
use std::fmt;

/// Differences beyond these are counted alone.
const KEPT: usize = 20;

pub struct Comparison {
    subject: FirstMiss,
    pub tally: Tally,
    pub cases: u64,
    pub differing: u64,
    pub differences: Vec<Difference>,
}

pub struct Difference {
    number: u64,
    case: Case,
    expected: [u32; 4],
    actual: Outcome,
}

/// The result, and the list and the answer with words behind them that are not the subject's.
#[derive(Debug, PartialEq, Eq)]
struct Outcome {
    number: u32,
    values: Vec<u32>,
    answer: Vec<u32>,
}

impl Comparison {
    pub fn new(subject: FirstMiss) -> Self {
        let tally = Tally::default();
        Self { subject, tally, cases: 0, differing: 0, differences: Vec::new() }
    }

    pub fn case(&mut self, case: Case) {
        let expected = expected(&case);
        let actual = actual(self.subject, &case);
        self.tally.add(expected);
        if actual != outcome(&case, expected) {
            self.differing += 1;
            if self.differences.len() < KEPT {
                let number = self.cases;
                self.differences.push(Difference { number, case, expected, actual });
            }
        }
        self.cases += 1;
    }
}

fn outcome(case: &Case, told: [u32; 4]) -> Outcome {
    let mut answer = vec![UNWRITTEN; case.answer_room + GUARD];
    let written = case.answer_room.min(told.len());
    answer[..written].copy_from_slice(&told[..written]);
    Outcome { number: told[0], values: with_guard(&case.values), answer }
}

fn actual(subject: FirstMiss, case: &Case) -> Outcome {
    let mut values = with_guard(&case.values);
    let mut answer = vec![UNWRITTEN; case.answer_room + GUARD];
    let number = subject(case, &mut values[..case.values.len()], &mut answer[..case.answer_room]);
    Outcome { number, values, answer }
}

impl fmt::Display for Difference {
    fn fmt(&self, f: &mut fmt::Formatter<'_>) -> fmt::Result {
        let Self { number, case, expected, actual } = self;
        writeln!(f, "case {number} differs")?;
        writeln!(f, "  {}", String::from_utf8_lossy(&case.draft.text))?;
        write!(f, "  pattern {}, value {}, marks {:?}", case.pattern(), case.value(), case.marks)?;
        writeln!(f, ", scoping {}, list {:?}", case.scoping, case.values)?;
        writeln!(f, "  expected {expected:?}")?;
        write!(f, "  answered {actual:?}")
    }
}
