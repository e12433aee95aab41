//! The second reading by hand, and subjects that are wrong.

use super::case::{words, Measured};
use super::comparison::Comparison;
use super::entry::{ALWAYS, NEVER, SOMETIMES};
use super::generate::case;
use super::reading::{expected, Expected};
use crate::matching::case::Case;
use crate::matching::expected::{expected as expected_run, Expected as Run};
use crate::sheets::{encode, rule};

/// The pattern on the left, the value on the right; its numbers have these ranges, by the number.
fn answer(text: &str, ranges: &[(i128, [i128; 2])]) -> u32 {
    let case = Case::new(encode(&rule(text)));
    let mut asked = Measured { lowest: Vec::new(), highest: Vec::new(), small: true, case };
    for node in &asked.case.draft.nodes {
        let own = if node[0] == 3 { asked.case.draft.numbers[node[3] as usize] } else { 0 };
        let found = ranges.iter().find(|(number, _)| *number == own);
        let ends = found.map_or([own, own], |(_, ends)| *ends);
        asked.lowest.extend(words(ends[0]));
        asked.highest.extend(words(ends[1]));
    }
    number(&expected(&asked))
}

fn number(expected: &Expected) -> u32 {
    match expected {
        Expected::Refused([number, ..]) => *number,
        Expected::Judged(judged) => judged.number,
    }
}

#[test]
fn one_number_against_a_literal() {
    assert_eq!(answer("18 = 17", &[(17, [17, 19])]), SOMETIMES);
    assert_eq!(answer("18 = 17", &[(17, [18, 18])]), ALWAYS);
    assert_eq!(answer("18 = 17", &[(17, [16, 17])]), NEVER);
    assert_eq!(answer("18 = 17", &[(17, [19, 17])]), 32);
    assert_eq!(answer("18 = 17", &[(18, [1, 2]), (17, [18, 18])]), ALWAYS);
}

#[test]
fn names_and_numbers_that_are_chosen_once() {
    assert_eq!(answer("[x, x] = [1, 2]", &[(1, [1, 3]), (2, [2, 5])]), SOMETIMES);
    assert_eq!(answer("[x, x] = [1, 2]", &[(1, [2, 2])]), ALWAYS);
    assert_eq!(answer("[x, x, x] = [1, 2, 3]", &[(1, [1, 9]), (2, [1, 3]), (3, [5, 7])]), NEVER);
    assert_eq!(answer("[x, _, y] = [1, 2, 3]", &[(1, [1, 9]), (2, [1, 3])]), ALWAYS);
    assert_eq!(answer("x = {1: 1}", &[(1, [1, 9])]), ALWAYS);
    assert_eq!(answer("{1: 1} = {1: 1}", &[(1, [1, 9])]), SOMETIMES);
    assert_eq!(answer("[x] = {1: 1}", &[(1, [1, 9])]), NEVER);
}

/// Does as the second reading says.
fn right(asked: &Measured, values: &mut [u32], plan: &mut [u32], answer: &mut [u32]) -> u32 {
    plan.fill(0);
    let told = match expected(asked) {
        Expected::Refused(told) => told,
        Expected::Judged(judged) => {
            plan[..judged.plan.len()].copy_from_slice(&judged.plan);
            values.copy_from_slice(&judged.values);
            [judged.number, 0, 0, 0]
        }
    };
    tell(answer, told)
}

fn tell(answer: &mut [u32], told: [u32; 4]) -> u32 {
    answer.iter_mut().zip(told).for_each(|(word, number)| *word = number);
    told[0]
}

/// A run, by the second reading with the numbers themselves as ranges.
fn present(case: &Case, values: &mut [u32], plan: &mut [u32], answer: &mut [u32]) -> u32 {
    if let Run::Refused(told) = expected_run(case) {
        plan.fill(0);
        return tell(answer, told);
    }
    let own = |node: &[u32; 5]| case.draft.numbers.get(node[3] as usize).filter(|_| node[0] == 3);
    let ends = case.draft.nodes.iter().flat_map(|node| words(own(node).copied().unwrap_or(0)));
    let ends: Vec<u64> = ends.collect();
    let asked = Measured { case: case.clone(), lowest: ends.clone(), highest: ends, small: true };
    right(&asked, values, plan, answer)
}

fn changed(told: u32, from: u32, to: u32, answer: &mut [u32]) -> u32 {
    if told == from {
        tell(answer, [to, 0, 0, 0])
    } else {
        told
    }
}

fn always_for_sometimes(asked: &Measured, v: &mut [u32], p: &mut [u32], a: &mut [u32]) -> u32 {
    changed(right(asked, v, p, a), SOMETIMES, ALWAYS, a)
}

fn sometimes_for_always(asked: &Measured, v: &mut [u32], p: &mut [u32], a: &mut [u32]) -> u32 {
    changed(right(asked, v, p, a), ALWAYS, SOMETIMES, a)
}

fn never_for_32(asked: &Measured, v: &mut [u32], p: &mut [u32], a: &mut [u32]) -> u32 {
    changed(right(asked, v, p, a), 32, NEVER, a)
}

fn sets_a_name(asked: &Measured, v: &mut [u32], p: &mut [u32], a: &mut [u32]) -> u32 {
    let told = right(asked, v, p, a);
    if told == SOMETIMES && !v.is_empty() {
        v[0] += 1;
    }
    told
}

/// The lowest numbers alone: the present run on them.
fn lowest_alone(asked: &Measured, v: &mut [u32], p: &mut [u32], a: &mut [u32]) -> u32 {
    let mut lowest = asked.clone();
    lowest.highest.clone_from(&asked.lowest);
    right(&lowest, v, p, a)
}

fn found_out(subject: super::entry::Run) -> u64 {
    let mut comparison = Comparison::new(subject, present);
    (0..1000).for_each(|number| comparison.case(case(1, number)));
    comparison.differing
}

#[test]
fn a_right_subject_agrees_and_wrong_ones_are_found_out() {
    assert_eq!(found_out(right), 0);
    let wrong: [super::entry::Run; 4] =
        [always_for_sometimes, sometimes_for_always, sets_a_name, lowest_alone];
    assert!(wrong.iter().all(|&subject| found_out(subject) > 20));
    assert!(found_out(never_for_32) > 5);
}

#[test]
fn the_choices_find_out_what_the_second_reading_does_not() {
    let wrong: crate::matching::entry::Run = |case, values, plan, answer| {
        let told = present(case, values, plan, answer);
        changed(told, ALWAYS, NEVER, answer)
    };
    let mut comparison = Comparison::new(right, wrong);
    (0..1000).for_each(|number| comparison.case(case(1, number)));
    assert!(comparison.differing > 50);
}

#[test]
fn every_class_is_met() {
    let mut comparison = Comparison::new(right, present);
    assert!(!comparison.tally.never_met().is_empty());
    (0..12_000).for_each(|number| comparison.case(case(1, number)));
    assert_eq!(comparison.tally.never_met(), Vec::<String>::new());
}
