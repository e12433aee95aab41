//! The model by the same functions in the present reading is the Rust's check; in wrong readings it
//! is found out by the generated sheets.

use super::super::expr::{literal_key, Field};
use super::super::{answer, ready};
use super::structure::{in_plan_order, look_past_unknown, Met, Reading, Structure, CAREFUL};
use super::*;
use crate::generate::sheet;
use crate::sheets::{encode, rule};
use planner::ast::Expr;
use planner::value::Value;
use std::collections::BTreeMap;

const SHEETS: u64 = 30_000;

type Ones<'a> = BTreeMap<&'a Value, &'a Field>;

/// Document 01: the first unknown item ends an array or object.
const PRESENT: Reading = Reading { meet: as_the_value_is_written, join: stop_at_unknown };

fn stop_at_unknown(items: &mut dyn Iterator<Item = Structure>) -> Structure {
    for item in items {
        if item != Structure::Match {
            return item;
        }
    }
    Structure::Match
}

/// A field without a partner is passed over.
fn as_the_value_is_written<'a>(ones: Ones<'a>, others: &'a [Field]) -> Vec<Met<'a>> {
    let partner = |other: &'a Field| Some((&ones.get(literal_key(&other.1)?)?.2, &other.2));
    others.iter().map(partner).filter(Option::is_some).collect()
}

fn as_the_pattern_is_written<'a>(ones: Ones<'a>, others: &'a [Field]) -> Vec<Met<'a>> {
    let mut met = in_plan_order(ones, others);
    met.sort_by_key(|met| met.map(|(one, _)| std::ptr::from_ref(one)));
    met
}

fn one_partner<'a>(ones: Ones<'a>, others: &'a [Field]) -> Vec<Met<'a>> {
    let mut met = in_plan_order(ones, others);
    met.dedup_by_key(|met| met.map(|(one, _)| std::ptr::from_ref(one)));
    met
}

fn partners_by_text<'a>(ones: Ones<'a>, others: &'a [Field]) -> Vec<Met<'a>> {
    let text = |key: &Value| key.to_string().trim_matches('"').to_string();
    let with_all = |(key, one): (&'a Value, &'a Field)| {
        let is_partner = move |other: &&Field| {
            literal_key(&other.1).is_some_and(|other| text(other) == text(key))
        };
        others.iter().filter(is_partner).map(|other| Some((&one.2, &other.2)))
    };
    ones.into_iter().flat_map(with_all).collect()
}

/// The generated rules that come as far as the structure check, with what the Rust returns.
fn checked() -> impl Iterator<Item = (Ready, Planned)> {
    let ready = (0..SHEETS).filter_map(|case| ready(&sheet(1, case)).ok());
    let planned = ready.map(|ready| {
        let planned = ready.plan();
        (ready, planned)
    });
    planned.filter(|(ready, planned)| held_together(ready, planned).is_some())
}

fn refused_by_the_rust(ready: &Ready, planned: Planned) -> Option<Refusal> {
    let refusal = operation::outcome(ready, planned).err();
    refusal.filter(|refusal| matches!(refusal.number, 13 | 14))
}

#[test]
fn lengths_key_checks_and_pairing_are_the_rusts() {
    let mut refused = 0;
    for (ready, planned) in checked() {
        let own = by_structure(&PRESENT, &ready, &planned);
        assert_eq!(own, refused_by_the_rust(&ready, planned));
        refused += u32::from(own.is_some());
    }
    assert!(refused > 1000, "{refused}");
}

fn has_object(pattern: &ExprRef) -> bool {
    match pattern.as_ref() {
        Expr::Object { .. } => true,
        Expr::Array { items, .. } => items.iter().any(has_object),
        _ => false,
    }
}

#[test]
fn it_refuses_what_the_present_reading_refuses() {
    let (mut same, mut moved, mut new) = (0, 0, 0);
    for (ready, planned) in checked() {
        let careful = by_structure(&CAREFUL, &ready, &planned);
        let (pattern, _) = held_together(&ready, &planned).expect("it was checked");
        let in_arrays = !has_object(pattern);
        match refused_by_the_rust(&ready, planned) {
            Some(present) if careful == Some(present) => same += 1,
            Some(present) => {
                assert!(careful.is_some(), "{present:?} in the present reading alone");
                assert!(!in_arrays, "{careful:?} where the present reading says {present:?}");
                moved += 1;
            }
            None => new += u32::from(careful.is_some()),
        }
    }
    assert!(same > 1000 && moved > 50 && new > 500, "{same} {moved} {new}");
}

#[test]
fn wrong_readings_are_found_out() {
    let wrong = [
        ("an unknown item ends", Reading { meet: in_plan_order, join: stop_at_unknown }, 500),
        ("the value's order", with(as_the_value_is_written), 50),
        ("the pattern's order", with(as_the_pattern_is_written), 50),
        ("one partner", with(one_partner), 5),
        ("partners by text", with(partners_by_text), 5),
    ];
    let mut differing = [0; 5];
    for (ready, planned) in checked() {
        let careful = by_structure(&CAREFUL, &ready, &planned);
        for ((_, reading, _), differing) in wrong.iter().zip(&mut differing) {
            *differing += u32::from(by_structure(reading, &ready, &planned) != careful);
        }
    }
    for ((name, _, least), differing) in wrong.iter().zip(differing) {
        assert!(differing >= *least, "{name}: {differing}");
    }
}

fn with(meet: structure::Meet) -> Reading {
    Reading { meet, join: look_past_unknown }
}

/// The structure of an assignment's sides in the careful reading.
fn structure(text: &str) -> Structure {
    let ready = ready(&encode(&rule(text)).bytes()).expect("a sound sheet");
    CAREFUL.check(&ready.first, ready.second())
}

#[test]
fn unknown_exactly_if_none_mismatches_and_some_item_is_unknown_or_computed() {
    let (fits, unknown) = (Structure::Match, Structure::Unknown);
    assert_eq!(structure("[[], {}] := [[], {\"a\": 1}]"), fits);
    assert_eq!(structure("[[], x] := [[], 1]"), unknown);
    assert_eq!(structure("[x, []] := [1, []]"), unknown);
    assert_eq!(structure("[1, []] := [1, []]"), unknown);
    assert_eq!(structure("[[]] := [{}]"), unknown);
    assert_eq!(structure("[] := x"), unknown);
    assert_eq!(structure("{\"a\": []} := {\"a\": [], k: 1}"), fits);
    assert_eq!(structure("{\"a\": [], k: x} := {\"a\": []}"), unknown);
    assert_eq!(structure("{k: x} := {}"), unknown);
    assert_eq!(structure("{} := {k: 1}"), fits);
    assert_eq!(structure("{1: []} := {\"1\": []}"), unknown);
    assert_eq!(structure("{1: [], \"1\": []} := {\"1\": [], 1: []}"), fits);
    assert_eq!(structure("{1: [], \"1\": []} := {\"1\": [], \"1\": []}"), unknown);
    assert!(matches!(structure("[x, []] := [1, [1]]"), Structure::Mismatch(_)));
    assert!(matches!(structure("{\"a\": [], k: x} := {\"a\": [1]}"), Structure::Mismatch(_)));
}

#[test]
fn the_present_readings_answer_stands_beside_the_careful_ones() {
    let present = |text: &str| answer(&encode(&rule(text)).bytes()).present;
    assert_eq!(present("careful [x, [y]] := [1, [1, 2]]"), Some(Present::Plans));
    assert_eq!(present("careful [x, [y]] := [1, [1]]"), None);
    assert_eq!(present("careful [[y], x] := [[1, 2], 1]"), Some(Present::Same));
    let moved = r#"careful {"b": [x], "a": [y]} := {"b": [1, 2], "a": [1, 2, 3]}"#;
    assert_eq!(present(moved), Some(Present::Elsewhere));
    assert_eq!(present("[[], [y]] := [[], [1, 2]]"), None);
}
