//! Holds a body's answer against what is expected of it, and counts.

use super::case::Case;
use super::entry::PlanBody;
use super::expected::{expected, Expected};
use super::tally::Tally;
use crate::matching::comparison::{with_guard, GUARD, UNWRITTEN};
use std::fmt;

/// Bytes past the marks, which are not the subject's.
const UNWRITTEN_MARK: u8 = 0xa5;
/// Differences beyond these are counted alone.
const KEPT: usize = 20;

pub struct Comparison {
    subject: PlanBody,
    pub tally: Tally,
    pub cases: u64,
    pub differing: u64,
    pub differences: Vec<Difference>,
}

pub struct Difference {
    number: u64,
    case: Case,
    expected: Outcome,
    actual: Outcome,
}

/// The result and every lent word afterwards, each range with its guard.
#[derive(Debug, PartialEq)]
struct Outcome {
    result: u32,
    answer: Vec<u32>,
    plan: Vec<u32>,
    marks: Vec<u8>,
}

impl Comparison {
    pub fn new(subject: PlanBody) -> Self {
        let tally = Tally::default();
        Self { subject, tally, cases: 0, differing: 0, differences: Vec::new() }
    }

    pub fn case(&mut self, case: Case) {
        let told = expected(&case);
        self.tally.add(&case, &told);
        let (expected, actual) = (wanted(&case, &told), actual(self.subject, &case));
        if expected != actual {
            self.differing += 1;
            if self.differences.len() < KEPT {
                let number = self.cases;
                self.differences.push(Difference { number, case, expected, actual });
            }
        }
        self.cases += 1;
    }
}

/// As many of the five words as there is space for; the plan, then zeros; the marks.
fn wanted(case: &Case, expected: &Expected) -> Outcome {
    let mut answer = vec![UNWRITTEN; case.answer_room + GUARD];
    let written = case.answer_room.min(expected.told.len());
    answer[..written].copy_from_slice(&expected.told[..written]);
    let mut plan = expected.plan.clone();
    plan.resize(case.room, 0);
    let (plan, marks) = (with_guard(&plan), guarded(&expected.marks));
    Outcome { result: expected.told[0], answer, plan, marks }
}

fn actual(subject: PlanBody, case: &Case) -> Outcome {
    let mut answer = vec![UNWRITTEN; case.answer_room + GUARD];
    let mut plan = vec![UNWRITTEN; case.room + GUARD];
    let mut marks = guarded(&case.marks);
    let result = subject(
        case,
        &mut marks[..case.marks.len()],
        &mut plan[..case.room],
        &mut answer[..case.answer_room],
    );
    Outcome { result, answer, plan, marks }
}

fn guarded(marks: &[u8]) -> Vec<u8> {
    [marks, &[UNWRITTEN_MARK; GUARD]].concat()
}

impl fmt::Display for Difference {
    fn fmt(&self, f: &mut fmt::Formatter<'_>) -> fmt::Result {
        let Self { number, case, expected, actual } = self;
        let Case { draft, marks, scheduler, lines, .. } = case;
        writeln!(f, "body {number} differs")?;
        writeln!(f, "{}", String::from_utf8_lossy(&draft.text))?;
        writeln!(f, "  lines {lines:?}, marks {marks:?}, scheduler {scheduler}")?;
        writeln!(f, "  expected {expected:?}")?;
        write!(f, "  answered {actual:?}")
    }
}

#[cfg(test)]
mod tests {
    use super::*;
    use crate::bodies::generate::case;

    /// The bodies of `count` in which a wrong subject is found out.
    fn found_out(subject: PlanBody, count: u64) -> u64 {
        let mut comparison = Comparison::new(subject);
        (0..count).for_each(|number| comparison.case(case(1, number)));
        comparison.differing
    }

    fn tell(answer: &mut [u32], told: [u32; 5]) -> u32 {
        answer.iter_mut().zip(told).for_each(|(word, number)| *word = number);
        told[0]
    }

    fn right(case: &Case, marks: &mut [u8], plan: &mut [u32], answer: &mut [u32]) -> u32 {
        let expected = expected(case);
        plan.fill(0);
        plan[..expected.plan.len()].copy_from_slice(&expected.plan);
        marks.copy_from_slice(&expected.marks);
        tell(answer, expected.told)
    }

    fn binds_nothing(case: &Case, marks: &mut [u8], plan: &mut [u32], answer: &mut [u32]) -> u32 {
        let result = right(case, marks, plan, answer);
        marks.copy_from_slice(&case.marks);
        result
    }

    fn tells_no_line(case: &Case, marks: &mut [u8], plan: &mut [u32], answer: &mut [u32]) -> u32 {
        right(case, marks, plan, answer);
        let [number, place, one, other, _] = expected(case).told;
        tell(answer, [number, place, one, other, 0])
    }

    fn leaves_a_plan(case: &Case, marks: &mut [u8], plan: &mut [u32], answer: &mut [u32]) -> u32 {
        let result = right(case, marks, plan, answer);
        plan.last_mut().into_iter().filter(|_| result != 0).for_each(|word| *word = 1);
        result
    }

    /// Plans the body's first line alone.
    fn stops_early(case: &Case, marks: &mut [u8], plan: &mut [u32], answer: &mut [u32]) -> u32 {
        let lines = case.lines[..case.lines.len().min(4)].to_vec();
        right(&Case { lines, ..case.clone() }, marks, plan, answer)
    }

    /// Gives the node after that of the name that is not ready.
    fn names_another(case: &Case, marks: &mut [u8], plan: &mut [u32], answer: &mut [u32]) -> u32 {
        let result = right(case, marks, plan, answer);
        answer.iter_mut().skip(1).take(usize::from(result == 38)).for_each(|place| *place += 1);
        result
    }

    #[test]
    fn a_right_subject_agrees_and_wrong_ones_are_found_out() {
        assert_eq!(found_out(right, 2000), 0);
        let wrong: [PlanBody; 5] =
            [binds_nothing, tells_no_line, leaves_a_plan, stops_early, names_another];
        assert!(wrong.iter().all(|&subject| found_out(subject, 2000) > 100));
    }

    #[test]
    fn a_class_that_is_never_met_is_told() {
        let mut comparison = Comparison::new(right);
        (0..5000).for_each(|number| comparison.case(case(1, number)));
        assert_eq!(comparison.tally.missing(), Vec::<String>::new());
        assert!(Comparison::new(right).tally.missing().contains(&"refused: 11, later".into()));
    }
}
