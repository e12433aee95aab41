//! The calls on a pattern, and a value: planning, a run, its first miss, the run with tolerance, the
//! names report; the table check that all of them make, adding a name, and which rule is broken.

use super::builder::{Builder, DEPTH};
use super::lent::{Lent, Space, PLANNED, ROOT_OUTSIDE};
use super::{within_bar, SAMPLES, SIZES};
use crate::clock::{by_turns, median};
use crate::inputs::kitchen_drafts;
use crate::report;
use std::hint::black_box;

const SOMETIMES: u32 = 101;
/// Where there is no name, none can be added to the lent table either.
const NO_PLACE: u32 = 33;

type Call = fn(&mut Lent, &mut Space) -> u32;

/// The calls, in the order of the columns, with what each answers here.
const CALLS: [(Call, &[u32]); 8] = [
    (Lent::check, &[ROOT_OUTSIDE]),
    (Lent::plan, &[PLANNED]),
    (Lent::names_report, &[PLANNED]),
    (Lent::run, &[PLANNED]),
    (Lent::first_miss, &[PLANNED]),
    (Lent::run_with_tolerance, &[PLANNED, SOMETIMES]),
    (Lent::add_name, &[PLANNED, NO_PLACE]),
    (Lent::table_fault, &[PLANNED]),
];

pub fn times() -> Result<Vec<String>, String> {
    let head = "| Shape | nodes | table check µs | plan µs | names report µs | run µs | first miss µs | run with tolerance µs | add name µs | table fault µs |";
    let (kitchen, name) = kitchen();
    let shapes = SHAPES
        .iter()
        .flat_map(|&(name, shape)| SIZES.map(|size| line(name, vec![shape(Builder::new(), size)])));
    report::table(head, std::iter::once_with(|| line(&name, kitchen)).chain(shapes))
}

/// The rules of the kitchen whose pattern runs on the value beside it.
fn kitchen() -> (Vec<Lent>, String) {
    let space = &mut Space::for_plans(None);
    let mut runs: Vec<Lent> = kitchen_drafts().iter().map(Lent::of).collect();
    runs.retain_mut(|lent| lent.run(space) == PLANNED);
    let name = format!("kitchen: {} runs", runs.len());
    (runs, name)
}

fn line(name: &str, mut tables: Vec<Lent>) -> Result<String, String> {
    let space = &mut Space::for_plans(None);
    for (place, (call, answers)) in CALLS.iter().enumerate() {
        for lent in &mut tables {
            let told = call(lent, space);
            if !answers.contains(&told) {
                return Err(format!("{name}: call {place} answers {told}"));
            }
        }
    }
    let times = by_turns(CALLS.len(), SAMPLES, |call| {
        for lent in &mut tables {
            black_box(CALLS[call].0(lent, space));
        }
    });
    let medians: Vec<Option<f64>> = times.into_iter().map(median).collect();
    within_bar(name, &medians, tables.len())?;
    let nodes = tables.iter().map(|lent| lent.words.nodes.len() as u64 / 5).sum();
    let mut columns = vec![report::thousands(nodes)];
    columns.extend(medians.into_iter().map(report::micros));
    Ok(report::line(name, &columns))
}

/// Tables of a number of nodes.
type Shape = fn(Builder, usize) -> Lent;

const SHAPES: [(&str, Shape); 11] = [
    ("[x, x, ..] on numbers", one_name),
    ("[x, x, ..] in 30 arrays", one_name_deep),
    ("[1, 1, ..] on numbers", literals),
    ("x, known, on itself", on_itself),
    ("x, known, on another array", on_another),
    ("known names in a chain", chain),
    ("object, keys reversed", fields),
    ("object, long keys reversed", long_fields),
    ("object, long keys reversed in the pattern", long_fields_planned),
    ("x, known, on another object of long keys", long_fields_compared),
    ("x, known, on itself, an object of long keys", long_fields_on_themselves),
];

fn number(b: &mut Builder, _place: usize) -> u32 {
    b.number()
}

fn numbers(b: &mut Builder, count: usize) -> u32 {
    b.array_of(count, number)
}

fn one_name(mut b: Builder, size: usize) -> Lent {
    let [pattern, value] = b.name_and_numbers(size, 0);
    b.lent([pattern, value, 0])
}

fn one_name_deep(mut b: Builder, size: usize) -> Lent {
    let [pattern, value] = b.name_and_numbers(size, DEPTH);
    b.lent([pattern, value, 0])
}

fn literals(mut b: Builder, size: usize) -> Lent {
    let [pattern, value] = [(); 2].map(|()| numbers(&mut b, size / 2 - 1));
    b.lent([pattern, value, 0])
}

fn on_itself(mut b: Builder, size: usize) -> Lent {
    let value = numbers(&mut b, size - 2);
    known(b, value, value)
}

fn on_another(mut b: Builder, size: usize) -> Lent {
    let [own, value] = [(); 2].map(|()| numbers(&mut b, (size - 3) / 2));
    known(b, own, value)
}

/// A known name on a value.
fn known(mut b: Builder, own: u32, value: u32) -> Lent {
    let pattern = b.name(0);
    b.know(pattern, own);
    b.lent([pattern, value, 0])
}

/// Each name has the next number for its value, so that all become one class.
fn chain(mut b: Builder, size: usize) -> Lent {
    let count = size / 4 - 1;
    let value = numbers(&mut b, count);
    let items: Vec<u32> = (0..count).map(|place| b.name(place)).collect();
    for (place, &name) in items.iter().enumerate() {
        let next = b.draft.children[(place + 1) % count];
        b.know(name, next);
    }
    let pattern = b.array(&items);
    b.lent([pattern, value, 0])
}

type Key = fn(&mut Builder, usize) -> u32;

/// An object of names on one of numbers, either with its keys the other way round.
fn objects(mut b: Builder, size: usize, key: Key, reversed: [bool; 2]) -> Lent {
    let count = size / 4 - 1;
    let pattern = b.object(count, reversed[0], key, Builder::name);
    let value = b.object(count, reversed[1], key, number);
    b.lent([pattern, value, 0])
}

fn fields(b: Builder, size: usize) -> Lent {
    objects(b, size, Builder::short_string, [false, true])
}

fn long_fields(b: Builder, size: usize) -> Lent {
    objects(b, size, Builder::long_string, [false, true])
}

fn long_fields_planned(b: Builder, size: usize) -> Lent {
    objects(b, size, Builder::long_string, [true, false])
}

fn long_fields_compared(mut b: Builder, size: usize) -> Lent {
    let [own, value] = [false, true]
        .map(|reversed| b.object(size / 4 - 1, reversed, Builder::long_string, number));
    known(b, own, value)
}

fn long_fields_on_themselves(mut b: Builder, size: usize) -> Lent {
    let value = b.object(size / 2 - 2, true, Builder::long_string, number);
    known(b, value, value)
}
