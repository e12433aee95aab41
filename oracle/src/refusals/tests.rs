//! Sides decided by hand, and a planner that refuses too much.

use super::generate::question;
use super::question::{has_repeats, Question};
use super::trial::{Trial, GREAT};
use super::trying::{try_fillings, Effort};
use super::unification::unifiable;
use crate::sheets::rule;

fn asked(text: &str) -> Question {
    let rule = rule(text);
    let items = vec![rule.first];
    Question { items, pattern: rule.second.expect("two sides"), key: None, scopes: vec![vec![]] }
}

/// Whether the sides can be made equal, by unification and by trying.
fn decided(text: &str) -> [bool; 2] {
    let (left, right) = asked(text).tables().sides();
    let tried = try_fillings(&left, &right, &GREAT).found;
    [unifiable(&left, &right), tried.expect("few fillings")]
}

fn all_can_be_equal(texts: &[&str]) {
    texts.iter().for_each(|text| assert_eq!(decided(text), [true, true], "{text}"));
}

fn none_can_be_equal(texts: &[&str]) {
    texts.iter().for_each(|text| assert_eq!(decided(text), [false, false], "{text}"));
}

#[test]
fn literals_lengths_and_key_sets() {
    all_can_be_equal(&[
        "1 = 1",
        "[`a`] = [\"a\"]",
        "[] = []",
        "{\"a\": x, 1: 2} = {1: 2, \"a\": 3}",
    ]);
    none_can_be_equal(&["1 = \"1\"", "[] = {}", "[x] = [1, 2]", "{} = {\"a\": x}"]);
    none_can_be_equal(&[
        "{1: x} = {\"1\": 2}",
        "{\"a\": x} = {\"b\": y}",
        "{\"a\": 1} = {\"a\": 2}",
    ]);
}

#[test]
fn the_names_of_the_sides_are_apart() {
    all_can_be_equal(&["x = [x]", "[x, 1] = [2, x]", "{\"a\": x, 1: 2} = {1: y, \"a\": [y]}"]);
}

#[test]
fn a_name_has_one_value_and_each_underscore_its_own() {
    all_can_be_equal(&["[x, x] = [[y], z]", "[_, _] = [1, 2]", "[x, [x]] = [[y], z]"]);
    none_can_be_equal(&["[x, x] = [1, 2]", "[x, x, 1] = [y, 2, y]", "[x, x] = [[_], 1]"]);
}

#[test]
fn no_value_has_itself_as_a_part() {
    none_can_be_equal(&["[x, x] = [[y], y]", "[x, [x]] = [y, y]", "[x, x] = [y, {\"a\": [y]}]"]);
    all_can_be_equal(&["[x, x] = [[_], _]", "[x, x] = [y, y]"]);
}

#[test]
fn of_repeated_keys_the_first_on_the_right_counts() {
    all_can_be_equal(&["{\"a\": x} = {\"a\": 1, \"a\": 1}", "{\"a\": x} = {\"a\": 1, \"a\": 2}"]);
    all_can_be_equal(&["x = {\"a\": 1, \"a\": 2}", "{\"a\": x, \"a\": [y]} = z"]);
    none_can_be_equal(&["{\"a\": 1, \"a\": 2} = {\"a\": x}", "{\"a\": 1, \"a\": 2} = x"]);
    none_can_be_equal(&["{\"a\": x} = {\"a\": 1, \"b\": 1}", "{\"a\": 2} = {\"a\": 1, \"a\": 2}"]);
}

#[test]
fn too_many_fillings_are_not_tried() {
    let (left, right) = asked("[x, y, z] = [[1], [2], [3, 3]]").tables().sides();
    let effort = Effort { rounds: 1, values: 10, fillings: 10 };
    assert!(try_fillings(&left, &right, &effort).found.is_none());
}

#[test]
fn keys_repeat_in_every_fifth_question_alone() {
    let repeat = |number| {
        let question = question(1, number);
        let sides = question.items.iter().map(|item| question.of(item).tables().sides());
        let repeats: Vec<bool> =
            sides.map(|(left, right)| has_repeats(&left) || has_repeats(&right)).collect();
        repeats.contains(&true)
    };
    assert!((0..2000).filter(|number| number % 5 != 0).all(|number| !repeat(number)));
    assert!((0..2000).filter(|&number| repeat(number)).count() > 100);
}

#[test]
fn a_planner_that_refuses_too_much_is_found_out() {
    let mut trial = Trial::new(|_| 14);
    trial.question(&asked("[x, [y]] := [1, [1, 2]]"));
    assert_eq!(trial.differing.equal, 0);
    trial.question(&asked("[x, [y, _]] := [1, [1, 2]]"));
    assert_eq!((trial.differing.refused, trial.differing.equal), (2, 1));
    (0..1000).for_each(|number| trial.question(&question(1, number)));
    assert!(trial.differing.equal > 100 && trial.differing.collections[1] > 10);
}
