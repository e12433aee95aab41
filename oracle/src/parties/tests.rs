//! The comparisons find no fault in calls that do as expected, and find those that are put in.

use super::adding::{self, Addition};
use super::additions::addition;
use super::calls::{AddName, Calls, Planning};
use super::expected::{expected, Why};
use super::histories;
use crate::matching::case::Case;
use std::cell::Cell;

fn put(answer: &mut [u32], words: [u32; 4]) -> u32 {
    answer.iter_mut().zip(words).for_each(|(place, word)| *place = word);
    words[0]
}

fn sound(addition: &mut Addition, answer: &mut [u32]) -> u32 {
    let told = expected(addition);
    addition.words.names = told.names;
    put(answer, told.answer)
}

fn odd_as_no_place(addition: &mut Addition, answer: &mut [u32]) -> u32 {
    match expected(addition).why {
        Why::OddNames => put(answer, [33, 0, 0, 0]),
        _ => sound(addition, answer),
    }
}

fn existing_as_added(addition: &mut Addition, answer: &mut [u32]) -> u32 {
    let told = expected(addition);
    match told.why {
        Why::Existing => put(answer, [0, told.answer[1], 1, 0]),
        _ => sound(addition, answer),
    }
}

/// A 129th name is refused, and stands in the table.
fn written_though_refused(addition: &mut Addition, answer: &mut [u32]) -> u32 {
    if expected(addition).why == Why::NoNumber {
        addition.words.names[2 * addition.used as usize] = addition.start;
        return put(answer, [33, 0, 0, 0]);
    }
    sound(addition, answer)
}

fn compared(subject: AddName, additions: u64) -> adding::Comparison {
    let mut comparison = adding::Comparison::new(subject);
    (0..additions).map(|number| addition(1, number)).for_each(|(addition, room)| {
        comparison.addition(addition, room);
    });
    comparison
}

#[test]
fn all_classes_of_additions_are_met_and_faults_are_found() {
    let comparison = compared(sound, 5000);
    assert_eq!((comparison.differing, comparison.unmet()), (0, Vec::new()));
    for subject in [odd_as_no_place, existing_as_added, written_though_refused] {
        assert!(compared(subject, 5000).differing > 0);
    }
}

#[test]
fn a_few_additions_do_not_meet_all_classes() {
    assert!(!compared(sound, 5).unmet().is_empty());
}

thread_local! {
    /// What the last call of either party had as marks.
    static LAST: Cell<u32> = const { Cell::new(0) };
}

fn sum(case: &Case) -> u32 {
    case.marks.iter().map(|&mark| u32::from(mark)).sum()
}

fn from_marks(case: &Case, _: Planning, plan: &mut [u32], _: &mut [u32]) -> u32 {
    plan.fill(sum(case));
    0
}

/// Answers by the marks of the call before, too.
fn leaking(case: &Case, _: Planning, plan: &mut [u32], _: &mut [u32]) -> u32 {
    plan.fill(LAST.replace(sum(case)));
    0
}

fn binding(case: &mut Case, _: &[u32], _: &mut [u32], _: &mut [u32]) -> u32 {
    case.marks[0] |= 1;
    0
}

/// Leaves in the marks what it found in the other's.
fn mixing(case: &mut Case, _: &[u32], _: &mut [u32], _: &mut [u32]) -> u32 {
    case.marks[0] = LAST.replace(sum(case)) as u8 & 31;
    0
}

fn counting_names(case: &Case, list: &mut [u32], _: &mut [u32]) -> u32 {
    list.fill(case.draft.names.len() as u32);
    0
}

fn calls() -> Calls {
    let run = |_: &Case, _: &mut [u32], _: &mut [u32], _: &mut [u32]| 100;
    let report = |_: &Case, _: &mut [u32], _: &mut [u32]| 0;
    Calls { add_name: sound, plan: from_marks, body: binding, run, report }
}

fn differing(calls: Calls) -> u64 {
    let mut comparison = histories::Comparison::new(calls);
    (0..500).for_each(|number| comparison.history(1, number));
    comparison.differing
}

#[test]
fn what_leaks_from_one_party_to_the_other_is_found() {
    assert_eq!(differing(calls()), 0);
    assert!(differing(Calls { plan: leaking, ..calls() }) > 0);
    assert!(differing(Calls { body: mixing, ..calls() }) > 0);
}

#[test]
fn an_answer_that_changes_with_a_name_more_is_found() {
    assert!(differing(Calls { report: counting_names, ..calls() }) > 0);
}
