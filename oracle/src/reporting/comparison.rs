//! Holds a names report against what is expected of it, and counts.

use super::entry::Report;
use super::expected::expected;
use crate::matching::case::Case;
use crate::matching::comparison::{with_guard, GUARD, UNWRITTEN};

/// Differences beyond these are counted alone.
const KEPT: usize = 20;

pub struct Comparison {
    subject: Report,
    pub cases: u64,
    pub differing: u64,
    /// Names reported as bound, and as met or a computed key.
    pub bound: u64,
    pub met: u64,
    pub refusals: u64,
    pub differences: Vec<String>,
}

impl Comparison {
    pub fn new(subject: Report) -> Self {
        let (bound, met, refusals) = (0, 0, 0);
        Self { subject, cases: 0, differing: 0, bound, met, refusals, differences: Vec::new() }
    }

    pub fn case(&mut self, case: &Case) {
        let (told, list) = match expected(case) {
            Ok(list) => ([0; 4], list),
            Err(told) => (told, vec![0; case.values.len()]),
        };
        self.refusals += u64::from(told[0] != 0);
        let count = |word: u32| list.iter().filter(|&&own| own == word).count() as u64;
        self.bound += count(1);
        self.met += count(2);
        let wanted = (told[0], with_guard(&list), answer_words(case, told));
        let actual = actual(self.subject, case);
        if wanted != actual {
            self.differing += 1;
            if self.differences.len() < KEPT {
                self.differences.push(difference(self.cases, case, &wanted, &actual));
            }
        }
        self.cases += 1;
    }
}

/// The answer's number, the list and the answer's words, each list with its guard.
type Outcome = (u32, Vec<u32>, Vec<u32>);

fn actual(subject: Report, case: &Case) -> Outcome {
    let mut list = with_guard(&case.values);
    let mut answer = vec![UNWRITTEN; case.answer_room + GUARD];
    let room = case.values.len();
    let number = subject(case, &mut list[..room], &mut answer[..case.answer_room]);
    (number, list, answer)
}

/// As many of the four as there is space for, and what is not written.
fn answer_words(case: &Case, told: [u32; 4]) -> Vec<u32> {
    let mut words = vec![UNWRITTEN; case.answer_room + GUARD];
    let written = case.answer_room.min(told.len());
    words[..written].copy_from_slice(&told[..written]);
    words
}

fn difference(number: u64, case: &Case, wanted: &Outcome, actual: &Outcome) -> String {
    let Case { draft, marks, scheduler, scoping, .. } = case;
    let text = String::from_utf8_lossy(&draft.text);
    let lines = [
        format!("report {number} differs"),
        format!("  {text}"),
        format!(
            "  pattern {}, marks {marks:?}, scheduler {scheduler}, scoping {scoping}",
            case.pattern()
        ),
        format!("  expected {wanted:?}"),
        format!("  answered {actual:?}"),
    ];
    lines.join("\n")
}

#[cfg(test)]
mod tests {
    use super::*;

    /// The cases of `count` in which a wrong subject is found out.
    fn found_out(subject: Report, count: u64) -> u64 {
        let mut comparison = Comparison::new(subject);
        (0..count).for_each(|number| comparison.case(&super::super::case(1, number)));
        comparison.differing
    }

    fn right(case: &Case, list: &mut [u32], answer: &mut [u32]) -> u32 {
        list.fill(0);
        let told = match expected(case) {
            Ok(words) => {
                list.copy_from_slice(&words);
                [0; 4]
            }
            Err(told) => told,
        };
        answer.iter_mut().zip(told).for_each(|(word, number)| *word = number);
        told[0]
    }

    fn calls_bound_met(case: &Case, list: &mut [u32], answer: &mut [u32]) -> u32 {
        let number = right(case, list, answer);
        list.iter_mut().filter(|word| **word == 1).for_each(|word| *word = 2);
        number
    }

    fn leaves_the_list(case: &Case, list: &mut [u32], answer: &mut [u32]) -> u32 {
        let before = list.to_vec();
        let number = right(case, list, answer);
        if number != 0 {
            list.copy_from_slice(&before);
        }
        number
    }

    #[test]
    fn a_right_subject_agrees_and_wrong_ones_are_found_out() {
        assert_eq!(found_out(right, 2000), 0);
        assert!(found_out(calls_bound_met, 2000) > 100);
        assert!(found_out(leaves_the_list, 2000) > 100);
    }
}
