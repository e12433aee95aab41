//! Holds a run with tolerance against the second reading, and against its choices where they can
//! be tried; and counts.

use super::case::Measured;
use super::choices::by_choices;
use super::entry::Run;
use super::reading::{expected, Expected};
use super::tally::Tally;
use crate::matching::comparison::{with_guard, GUARD, UNWRITTEN};
use crate::matching::entry::Run as PresentRun;
use std::fmt;

/// Differences beyond these are counted alone.
const KEPT: usize = 20;

pub struct Comparison {
    subject: Run,
    present: PresentRun,
    pub tally: Tally,
    pub cases: u64,
    pub tried: u64,
    pub differing: u64,
    pub differences: Vec<Difference>,
}

pub struct Difference {
    number: u64,
    what: &'static str,
    asked: Measured,
    expected: Expected,
    actual: Outcome,
}

/// The result, and the list, the plan buffer and the answer with words behind them that are not the
/// subject's.
#[derive(Debug, PartialEq, Eq)]
struct Outcome {
    number: u32,
    values: Vec<u32>,
    plan: Vec<u32>,
    answer: Vec<u32>,
}

impl Comparison {
    pub fn new(subject: Run, present: PresentRun) -> Self {
        let tally = Tally::default();
        Self { subject, present, tally, cases: 0, tried: 0, differing: 0, differences: Vec::new() }
    }

    pub fn case(&mut self, asked: Measured) {
        let read = expected(&asked);
        let chosen = by_choices(&asked, self.present);
        let actual = actual(self.subject, &asked);
        self.tally.add(&asked, &read, chosen.is_some());
        self.tried += u64::from(chosen.is_some());
        let what = if actual != outcome(&asked, &read) {
            Some("the second reading")
        } else if chosen.is_some_and(|chosen| actual != outcome(&asked, &chosen)) {
            Some("what the choices say")
        } else {
            None
        };
        if let Some(what) = what {
            self.differing += 1;
            if self.differences.len() < KEPT {
                let number = self.cases;
                self.differences.push(Difference { number, what, asked, expected: read, actual });
            }
        }
        self.cases += 1;
    }
}

fn outcome(asked: &Measured, expected: &Expected) -> Outcome {
    let case = &asked.case;
    let (told, values, plan) = match expected {
        Expected::Refused(told) => (*told, &case.values, Vec::new()),
        Expected::Judged(judged) => ([judged.number, 0, 0, 0], &judged.values, judged.plan.clone()),
    };
    let mut plan = plan;
    plan.resize(case.room, 0);
    let mut answer = vec![UNWRITTEN; case.answer_room + GUARD];
    let written = case.answer_room.min(told.len());
    answer[..written].copy_from_slice(&told[..written]);
    Outcome { number: told[0], values: with_guard(values), plan: with_guard(&plan), answer }
}

fn actual(subject: Run, asked: &Measured) -> Outcome {
    let case = &asked.case;
    let mut values = with_guard(&case.values);
    let mut plan = vec![UNWRITTEN; case.room + GUARD];
    let mut answer = vec![UNWRITTEN; case.answer_room + GUARD];
    let number = subject(
        asked,
        &mut values[..case.values.len()],
        &mut plan[..case.room],
        &mut answer[..case.answer_room],
    );
    Outcome { number, values, plan, answer }
}

impl fmt::Display for Difference {
    fn fmt(&self, f: &mut fmt::Formatter<'_>) -> fmt::Result {
        let Self { number, what, asked, expected, actual } = self;
        let Measured { case, lowest, highest, .. } = asked;
        writeln!(f, "case {number}: {what} differs")?;
        writeln!(f, "  {}", String::from_utf8_lossy(&case.draft.text))?;
        write!(f, "  pattern {}, value {}, marks {:?}", case.pattern(), case.value(), case.marks)?;
        writeln!(f, ", scoping {}, list {:?}", case.scoping, case.values)?;
        writeln!(f, "  lowest {lowest:?}, highest {highest:?}")?;
        writeln!(f, "  expected {expected:?}")?;
        write!(f, "  answered {actual:?}")
    }
}
