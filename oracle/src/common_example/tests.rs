//! The second reading by hand, and subjects that are wrong.

use super::case::Pair;
use super::comparison::Comparison;
use super::entry::{Call, NONE, TOO_LARGE};
use super::generate::case;
use super::reading::{expected, Expected, Size};
use crate::matching::case::Case;
use crate::matching::entry::{Run, MATCH, NO_MATCH};
use crate::refusals::unification::Unequal;
use crate::sheets::{encode, rule};

/// The sides of a rule, whose names have no marks.
fn pair(text: &str) -> Pair {
    let first = Case::new(encode(&rule(text)));
    let mut second = first.clone();
    second.draft.roots[0] = first.draft.roots[1];
    Pair { sides: [first, second], node_room: 5 * 512, child_room: 512, answer_room: 4 }
}

/// Makes a name known on a side, with a node for its value.
fn know(pair: &mut Pair, side: usize, name: &str, node: u32) {
    let case = &mut pair.sides[side];
    let place = case.name_number(name.as_bytes()) as usize - 1;
    case.marks[place] = 1;
    case.values[place] = node;
}

fn number(pair: &Pair) -> u32 {
    expected(pair).told(pair)[0]
}

/// The nodes of the example without their spans, and its child entries.
fn words(pair: &Pair) -> (Vec<[u32; 3]>, Vec<u32>) {
    let Expected::Found(value, _) = expected(pair) else { panic!("there is an example") };
    let nodes = value.nodes.iter().map(|&[kind, start, end, first, count]| {
        assert_eq!([start, end], [0, 0]);
        [kind, first, count]
    });
    (nodes.collect(), value.children)
}

#[test]
fn what_nothing_fixes_is_null() {
    assert_eq!(words(&pair("x = y")), (vec![[5, 0, 0]], vec![]));
    assert_eq!(expected(&pair("x = y")).told(&pair("x = y")), [0, 3, 1, 0]);
}

#[test]
fn repeated_names_count_and_names_of_the_sides_are_apart() {
    let reason = |text: &str| match expected(&pair(text)) {
        Expected::None(reason) => Some(reason),
        _ => None,
    };
    assert_eq!(reason("[x, x] = [[y], y]"), Some(Unequal::HoldsItself));
    assert_eq!(reason("[x, x] = [1, 2]"), Some(Unequal::Shapes));
    assert_eq!(reason("[x, x] = [[y], z]"), None);
    assert_eq!(reason("x = [x]"), None);
}

#[test]
fn each_item_is_whole_before_the_next_and_fields_are_in_key_order() {
    // eleven nodes and nine child entries in the tables
    let (nodes, children) = words(&pair(r#"{"b": [x], 1: x} = {1: 2, "b": y}"#));
    // 1: 2, then "b": [2]; 1 and 2 by their places in the numbers
    let copied = [[3, 0, 0], [3, 2, 0], [1, 0, 1], [3, 2, 0]];
    assert_eq!(nodes[..4], copied);
    assert_eq!(nodes[4..], [[7, 9, 1], [9, 10, 2]]);
    assert_eq!(children, [15, 12, 13, 14, 16]);
}

#[test]
fn an_empty_parent_has_the_place_where_its_children_would_be() {
    // four child entries in the tables, of seven nodes
    let (nodes, children) = words(&pair("[x, 1] = [[], y]"));
    assert_eq!(nodes, [[7, 4, 0], [3, 0, 0], [7, 4, 2]]);
    assert_eq!(children, [7, 8]);
}

#[test]
fn a_literal_copies_the_lowest_node_that_is_equal() {
    assert_eq!(words(&pair("[`q`, x] = [_, \"q\"]")).0[..2], [[2, 2, 1], [2, 2, 1]]);
    assert_eq!(words(&pair("[\"q\", x] = [_, `q`]")).0[..2], [[1, 0, 1], [1, 0, 1]]);
}

#[test]
fn a_known_name_has_its_value_on_its_own_side() {
    let mut pair = pair("[x, 1] = [x, _]");
    assert_eq!(words(&pair).0, [[5, 0, 0], [3, 0, 0], [7, 4, 2]]);
    know(&mut pair, 1, "x", 2);
    assert_eq!(words(&pair).0, [[3, 0, 0], [3, 0, 0], [7, 4, 2]]);
    know(&mut pair, 0, "x", 3);
    assert_eq!(number(&pair), 22);
    know(&mut pair, 0, "x", 0);
    assert_eq!(number(&pair), 23);
}

#[test]
fn the_first_side_is_checked_before_the_second_and_7_before_both() {
    let mut pair = pair("[x] = [{1}]");
    pair.node_room = 0;
    assert_eq!(number(&pair), 21);
    pair.sides[0].values.clear();
    pair.sides[1].marks[0] = 32;
    assert_eq!(number(&pair), 20);
    pair.sides[1].scoping = 5;
    assert_eq!(number(&pair), 7);
}

#[test]
fn what_is_lent_and_the_limits() {
    let [mut short, mut deep] = ["[x, x] = [[], y]", "x = y"].map(pair);
    (short.node_room, short.child_room) = (15, 2);
    assert_eq!(number(&short), 0);
    short.node_room = 14;
    assert_eq!(number(&short), TOO_LARGE);
    (short.node_room, short.child_room) = (15, 1);
    assert_eq!(number(&short), TOO_LARGE);
    deep.child_room = 0;
    assert_eq!(number(&deep), 0);
    let limits = |nodes, depth| Size { nodes, depth }.excess(&pair("x = y"));
    assert_eq!(limits(512, 32), [false; 4]);
    assert_eq!(limits(513, 33), [true, false, true, true]);
}

/// Does as the second reading says.
fn right(pair: &mut Pair, nodes: &mut [u32], children: &mut [u32], answer: &mut [u32]) -> u32 {
    nodes.fill(0);
    children.fill(0);
    let expected = expected(pair);
    if let Expected::Found(value, _) = &expected {
        nodes[..5 * value.nodes.len()].copy_from_slice(&value.nodes.concat());
        children[..value.children.len()].copy_from_slice(&value.children);
    }
    tell(answer, expected.told(pair))
}

fn tell(answer: &mut [u32], told: [u32; 4]) -> u32 {
    answer.iter_mut().zip(told).for_each(|(word, number)| *word = number);
    told[0]
}

fn found_out(subject: Call, run: Run) -> u64 {
    let mut comparison = Comparison::new(subject, run);
    (0..1000).for_each(|number| comparison.case(case(1, number)));
    comparison.differing
}

const ALWAYS: Run = |_, _, _, _| MATCH;

#[test]
fn a_right_subject_agrees_and_wrong_words_are_found_out() {
    assert_eq!(found_out(right, ALWAYS), 0);
    let wrong: [Call; 5] = [
        |pair, nodes, children, answer| {
            let told = right(pair, nodes, children, answer);
            nodes.iter_mut().skip(3).take(1).for_each(|word| *word ^= 1);
            told
        },
        |pair, nodes, children, answer| {
            let told = right(pair, nodes, children, answer);
            children.iter_mut().rev().take(1).for_each(|word| *word += 1);
            told
        },
        |pair, nodes, children, answer| {
            let before = nodes.to_vec();
            let told = right(pair, nodes, children, answer);
            if told == NONE {
                nodes.copy_from_slice(&before);
            }
            told
        },
        |pair, nodes, children, answer| {
            let told = right(pair, nodes, children, answer);
            answer.iter_mut().skip(3).for_each(|word| *word += 1);
            told
        },
        |pair, nodes, children, answer| {
            let told = right(pair, nodes, children, answer);
            pair.sides[1].marks.iter_mut().for_each(|marks| *marks ^= 1);
            told
        },
    ];
    assert!(wrong.iter().all(|&subject| found_out(subject, ALWAYS) > 100));
}

/// Answers otherwise where something is expected.
fn instead(told: u32, is: bool, other: u32, lists: [&mut [u32]; 3]) -> u32 {
    if !is {
        return told;
    }
    let [nodes, children, answer] = lists;
    nodes.fill(0);
    children.fill(0);
    tell(answer, [other, 0, 0, 0])
}

#[test]
fn wrong_verdicts_are_found_out() {
    let without_occurs_check: Call = |pair, nodes, children, answer| {
        let is = matches!(expected(pair), Expected::None(Unequal::HoldsItself));
        let told = right(pair, nodes, children, answer);
        instead(told, is, TOO_LARGE, [nodes, children, answer])
    };
    let none_for_large: Call = |pair, nodes, children, answer| {
        let told = right(pair, nodes, children, answer);
        instead(told, told == TOO_LARGE, NONE, [nodes, children, answer])
    };
    let none_for_known: Call = |pair, nodes, children, answer| {
        let told = right(pair, nodes, children, answer);
        let is = told == 0 && pair.sides[1].marks.contains(&1);
        instead(told, is, NONE, [nodes, children, answer])
    };
    let second_side_first: Call = |pair, nodes, children, answer| {
        let mut turned = pair.clone();
        turned.sides.reverse();
        right(&mut turned, nodes, children, answer)
    };
    assert!(found_out(without_occurs_check, ALWAYS) > 10);
    assert!(found_out(none_for_large, ALWAYS) > 100);
    assert!(found_out(none_for_known, ALWAYS) > 10);
    assert!(found_out(second_side_first, ALWAYS) > 0);
}

#[test]
fn a_run_that_does_not_match_is_found_out() {
    assert!(found_out(right, |_, _, _, _| NO_MATCH) > 100);
}

#[test]
fn every_class_is_met() {
    let mut comparison = Comparison::new(right, ALWAYS);
    assert!(!comparison.tally.never_met().is_empty());
    (0..15_000).for_each(|number| comparison.case(case(1, number)));
    assert_eq!(comparison.tally.never_met(), Vec::<String>::new());
}
