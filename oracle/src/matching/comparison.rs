//! Holds a run against what is expected of it, and counts.

use super::case::Case;
use super::entry::{Run, MATCH, NO_MATCH};
use super::expected::{expected, Expected, Ran};
use super::reading::{reached, value_at};
use super::tally::Tally;
use super::value::equal;
use std::fmt;

/// Words past the list, the plan buffer and the answer, which are not the subject's.
pub(crate) const GUARD: usize = 4;
pub(crate) const UNWRITTEN: u32 = 0xa5a5_a5a5;
/// Differences beyond these are counted alone.
const KEPT: usize = 20;

pub struct Comparison {
    subject: Run,
    pub tally: Tally,
    pub cases: u64,
    pub differing: u64,
    pub differences: Vec<Difference>,
}

pub struct Difference {
    number: u64,
    what: &'static str,
    case: Case,
    expected: Expected,
    actual: Outcome,
}

#[derive(Debug)]
struct Outcome {
    number: u32,
    /// The list, and after it words that are not the subject's.
    values: Vec<u32>,
    /// The plan buffer and the answer, likewise.
    plan: Vec<u32>,
    answer: Vec<u32>,
}

impl Comparison {
    pub fn new(subject: Run) -> Self {
        let tally = Tally::default();
        Self { subject, tally, cases: 0, differing: 0, differences: Vec::new() }
    }

    pub fn case(&mut self, case: Case) {
        let expected = expected(&case);
        self.tally.add(&case, &expected);
        let actual = actual(self.subject, &case);
        if let Some(what) = difference(&case, &expected, &actual) {
            self.differing += 1;
            if self.differences.len() < KEPT {
                let number = self.cases;
                self.differences.push(Difference { number, what, case, expected, actual });
            }
        }
        self.cases += 1;
    }
}

fn actual(subject: Run, case: &Case) -> Outcome {
    let mut values = with_guard(&case.values);
    let mut plan = vec![UNWRITTEN; case.room + GUARD];
    let mut answer = vec![UNWRITTEN; case.answer_room + GUARD];
    let number = subject(
        case,
        &mut values[..case.values.len()],
        &mut plan[..case.room],
        &mut answer[..case.answer_room],
    );
    Outcome { number, values, plan, answer }
}

pub(crate) fn with_guard(words: &[u32]) -> Vec<u32> {
    [words, &[UNWRITTEN; GUARD]].concat()
}

/// What differs, if anything.
fn difference(case: &Case, expected: &Expected, actual: &Outcome) -> Option<&'static str> {
    let Expected::Ran(ran) = expected else {
        return refusal_difference(case, expected, actual);
    };
    if !tells(case, [answer(ran), 0, 0, 0], actual) {
        Some("the answer")
    } else if actual.plan != padded(&ran.plan, case.room) {
        Some("the plan")
    } else if !fillings_agree(ran) {
        Some("two fillings")
    } else {
        list_difference(case, ran, actual)
    }
}

fn answer(ran: &Ran) -> u32 {
    if ran.fillings.is_empty() {
        NO_MATCH
    } else {
        MATCH
    }
}

/// The first number is the result, and as many of the four as there is space for are written.
fn tells(case: &Case, told: [u32; 4], actual: &Outcome) -> bool {
    let mut words = vec![UNWRITTEN; case.answer_room + GUARD];
    let written = case.answer_room.min(told.len());
    words[..written].copy_from_slice(&told[..written]);
    actual.number == told[0] && actual.answer == words
}

fn refusal_difference(case: &Case, expected: &Expected, actual: &Outcome) -> Option<&'static str> {
    let refused = matches!(expected, Expected::Refused(told) if tells(case, *told, actual));
    if !refused {
        Some("the answer")
    } else if actual.plan != padded(&[], case.room) {
        Some("the plan of a refusal")
    } else if actual.values != with_guard(&case.values) {
        Some("the list of a refusal")
    } else {
        None
    }
}

/// The words, zeros to the buffer's end, and the guard.
fn padded(words: &[u32], room: usize) -> Vec<u32> {
    let mut plan = words.to_vec();
    plan.resize(room, 0);
    with_guard(&plan)
}

/// Any two fillings give each name and each underscore equal values.
fn fillings_agree(ran: &Ran) -> bool {
    ran.fillings.iter().all(|filling| {
        filling.iter().zip(&ran.fillings[0]).all(|(value, first)| equal(value, first))
    })
}

/// A match sets the planned names alone, to nodes of the value that are equal to what they are
/// filled with.
fn list_difference(case: &Case, ran: &Ran, actual: &Outcome) -> Option<&'static str> {
    let mut rest = actual.values.clone();
    if let Some(filling) = ran.fillings.first() {
        let inside = reached(case, case.value());
        for (&name, wanted) in ran.planned.iter().zip(filling) {
            let place = name as usize - 1;
            let set = value_at(case, actual.values[place]);
            if !set.is_some_and(|set| equal(&set, wanted)) {
                return Some("the value of a name");
            }
            if !inside.contains(&actual.values[place]) {
                return Some("a node that is not the value's");
            }
            rest[place] = case.values[place];
        }
    }
    (rest != with_guard(&case.values)).then_some("the rest of the list")
}

impl fmt::Display for Difference {
    fn fmt(&self, f: &mut fmt::Formatter<'_>) -> fmt::Result {
        let Self { number, what, case, expected, actual } = self;
        writeln!(f, "case {number}: {what} differs")?;
        writeln!(f, "  {}", String::from_utf8_lossy(&case.draft.text))?;
        let Case { marks, scheduler, scoping, values, room, .. } = case;
        write!(f, "  pattern {}, value {}, marks {marks:?}", case.pattern(), case.value())?;
        writeln!(f, ", scheduler {scheduler}, scoping {scoping}, list {values:?}, room {room}")?;
        match expected {
            Expected::Refused(told) => writeln!(f, "  expected {told:?}")?,
            Expected::Ran(ran) => {
                let Ran { planned, plan, .. } = ran;
                writeln!(f, "  expected {}, names {planned:?}, plan {plan:?}", answer(ran))?;
            }
        }
        let Outcome { number, values, plan, answer } = actual;
        write!(f, "  answered {number}, {answer:?}, list {values:?}, plan {plan:?}")
    }
}

#[cfg(test)]
mod tests {
    use super::*;
    use crate::matching::generate::case;

    /// The cases of `count` in which a wrong subject is found out.
    fn found_out(subject: Run, count: u64) -> u64 {
        let mut comparison = Comparison::new(subject);
        (0..count).for_each(|number| comparison.case(case(1, number)));
        comparison.differing
    }

    /// Does as expected, and sets the names to the nodes that the matcher found.
    fn right(case: &Case, values: &mut [u32], plan: &mut [u32], answer: &mut [u32]) -> u32 {
        plan.fill(0);
        let ran = match expected(case) {
            Expected::Refused(told) => return tell(answer, told),
            Expected::Ran(ran) => ran,
        };
        plan[..ran.plan.len()].copy_from_slice(&ran.plan);
        let Some(filling) = ran.fillings.first() else { return tell(answer, [NO_MATCH, 0, 0, 0]) };
        for (&name, wanted) in ran.planned.iter().zip(filling) {
            let mut nodes = reached(case, case.value()).into_iter();
            let equals = |&node: &u32| equal(&value_at(case, node).unwrap(), wanted);
            values[name as usize - 1] = nodes.find(equals).unwrap();
        }
        tell(answer, [MATCH, 0, 0, 0])
    }

    fn tell(answer: &mut [u32], told: [u32; 4]) -> u32 {
        answer.iter_mut().zip(told).for_each(|(word, number)| *word = number);
        told[0]
    }

    fn misses_nothing(
        case: &Case,
        values: &mut [u32],
        plan: &mut [u32],
        answer: &mut [u32],
    ) -> u32 {
        let number = right(case, values, plan, answer);
        if number == NO_MATCH {
            tell(answer, [MATCH, 0, 0, 0])
        } else {
            number
        }
    }

    fn counts_nothing(
        case: &Case,
        values: &mut [u32],
        plan: &mut [u32],
        answer: &mut [u32],
    ) -> u32 {
        let number = right(case, values, plan, answer);
        tell(answer, [number, 0, 0, 0])
    }

    fn sets_too_much(case: &Case, values: &mut [u32], plan: &mut [u32], answer: &mut [u32]) -> u32 {
        let number = right(case, values, plan, answer);
        if let Some(last) = values.last_mut().filter(|_| number != MATCH) {
            *last ^= 1;
        }
        number
    }

    fn leaves_a_plan(case: &Case, values: &mut [u32], plan: &mut [u32], answer: &mut [u32]) -> u32 {
        let number = right(case, values, plan, answer);
        if let Some(last) = plan.last_mut() {
            *last |= 1;
        }
        number
    }

    #[test]
    fn a_right_subject_agrees_and_wrong_ones_are_found_out() {
        assert_eq!(found_out(right, 2000), 0);
        let wrong: [Run; 3] = [misses_nothing, sets_too_much, leaves_a_plan];
        assert!(wrong.iter().all(|&subject| found_out(subject, 2000) > 100));
        assert!(found_out(counts_nothing, 2000) > 5);
    }
}
