//! The common example of two patterns, and the checks of both sides alone: the same call, refused
//! at the end of them.

use super::builder::{Builder, DEPTH};
use super::lent::{Lent, Space, PLANNED};
use super::{within_bar, SAMPLES, SIZES};
use crate::clock::{by_turns, median};
use crate::inputs::kitchen_drafts;
use crate::report;
use oracle::c_calls::teluddru_common_example;
use oracle::common_example::entry::{FOUND, TOO_LARGE};
use std::hint::black_box;

const LIST_TOO_SHORT: u32 = 20;
const MOST_NODES: usize = 512;

/// Two patterns of the same tables; the marks and values of the first side are those of the tables.
struct Pair {
    lent: Lent,
    patterns: [u32; 2],
    second_marks: Vec<u8>,
    second_values: Vec<u32>,
}

/// What the call writes.
struct Written {
    nodes: Vec<u32>,
    children: Vec<u32>,
    answer: [u32; 4],
}

impl Written {
    fn new() -> Self {
        Self { nodes: vec![0; MOST_NODES * 5], children: vec![0; MOST_NODES], answer: [0; 4] }
    }
}

impl Pair {
    fn new(lent: Lent, patterns: [u32; 2]) -> Self {
        let (second_marks, second_values) = (lent.marks.clone(), lent.values.clone());
        Self { lent, patterns, second_marks, second_values }
    }

    /// The value list of the second side has no space where the call is to be refused.
    #[rustfmt::skip]
    fn call(&mut self, refused: bool, written: &mut Written) -> u32 {
        let Lent { words, marks, scheduler, scoping, values, .. } = &mut self.lent;
        let [first, second] = self.patterns;
        let listed = if refused { 0 } else { self.second_values.len() };
        teluddru_common_example(
            words,
            marks, *scheduler, *scoping, first, values,
            &mut self.second_marks, *scheduler, *scoping, second, &mut self.second_values[..listed],
            &mut written.nodes, &mut written.children, &mut written.answer,
        )
    }
}

pub fn times() -> Result<Vec<String>, String> {
    let head = "| Shape | nodes | names | value | checks µs | call µs |";
    let shapes = SHAPES
        .iter()
        .flat_map(|&(name, shape)| SIZES.map(|size| line(name, vec![shape(Builder::new(), size)])));
    report::table(head, std::iter::once_with(kitchen_line).chain(shapes))
}

/// The patterns of the kitchen's runs, each with itself.
fn kitchen_line() -> Result<String, String> {
    let (written, space) = (&mut Written::new(), &mut Space::for_plans(None));
    let mut runs: Vec<Lent> = kitchen_drafts().iter().map(Lent::of).collect();
    runs.retain_mut(|lent| lent.run(space) == PLANNED);
    let pairs = runs.into_iter().map(|lent| {
        let pattern = lent.roots[0];
        Pair::new(lent, [pattern; 2])
    });
    let mut pairs: Vec<Pair> = pairs.collect();
    pairs.retain_mut(|pair| pair.call(false, written) == FOUND);
    line(&format!("kitchen: {} patterns, each with itself", pairs.len()), pairs)
}

fn line(name: &str, mut pairs: Vec<Pair>) -> Result<String, String> {
    let written = &mut Written::new();
    let mut value = 0;
    for pair in &mut pairs {
        let told = pair.call(false, written);
        if told != FOUND && told != TOO_LARGE {
            return Err(format!("{name}: answered with {told}"));
        }
        value += if told == FOUND { u64::from(written.answer[2]) } else { told.into() };
        if pair.call(true, written) != LIST_TOO_SHORT {
            return Err(format!("{name}: not refused with {LIST_TOO_SHORT}"));
        }
    }
    let times = by_turns(2, SAMPLES, |call| {
        for pair in &mut pairs {
            black_box(pair.call(call == 0, written));
        }
    });
    let medians: Vec<Option<f64>> = times.into_iter().map(median).collect();
    within_bar(name, &medians, pairs.len())?;
    let sum = |count: fn(&Lent) -> usize| pairs.iter().map(|pair| count(&pair.lent) as u64).sum();
    let counts: [u64; 2] = [sum(|lent| lent.words.nodes.len() / 5), sum(|lent| lent.marks.len())];
    let mut columns: Vec<String> =
        counts.into_iter().chain([value]).map(report::thousands).collect();
    columns.extend(medians.into_iter().map(report::micros));
    Ok(report::line(name, &columns))
}

/// Two patterns in tables of a number of nodes.
type Shape = fn(Builder, usize) -> Pair;

const SHAPES: [(&str, Shape); 13] = [
    ("[x, x, ..] with numbers", one_name),
    ("[x, x, ..] in 30 arrays with numbers", one_name_deep),
    ("[x, y, ..] with itself", one_node),
    ("x, known, with y, known: numbers in 30 arrays", known_values),
    ("all names in one class", one_class),
    ("each name holds the next twice", doubling),
    ("each name holds the next", chain),
    ("two such chains, the first names equal", two_chains),
    ("a wide array in many places, a deep chain", wide_class),
    ("object, keys reversed", fields),
    ("object, long keys reversed", long_fields),
    ("[\"..\", ..], long strings, with x", long_strings),
    ("[`..`, ..], long raw strings, with x", long_raw_strings),
];

fn made(b: Builder, patterns: [u32; 2]) -> Pair {
    Pair::new(b.lent([0; 3]), patterns)
}

fn one_name(mut b: Builder, size: usize) -> Pair {
    let patterns = b.name_and_numbers(size, 0);
    made(b, patterns)
}

fn one_name_deep(mut b: Builder, size: usize) -> Pair {
    let patterns = b.name_and_numbers(size, DEPTH);
    made(b, patterns)
}

fn one_node(mut b: Builder, size: usize) -> Pair {
    let names = b.array_of(size - 1, |b, place| b.name(place % 127));
    made(b, [names; 2])
}

fn known_values(mut b: Builder, size: usize) -> Pair {
    let [(one, first), (other, second)] = [(); 2].map(|()| {
        let numbers = b.array_of(size / 2 - DEPTH - 2, |b, _| b.number());
        let value = b.inside(numbers, DEPTH);
        (b.name(0), value)
    });
    b.know(one, first);
    let mut pair = made(b, [one, other]);
    pair.second_values[0] = second;
    pair
}

/// Parts of the two patterns that have to be equal, place by place.
#[derive(Default)]
struct Equated {
    items: [Vec<u32>; 2],
}

impl Equated {
    /// The pattern `side` has the first.
    fn put(&mut self, side: usize, one: u32, other: u32) {
        self.items[side].push(one);
        self.items[1 - side].push(other);
    }

    fn made(self, mut b: Builder) -> Pair {
        let patterns = self.items.map(|items| b.array(&items));
        made(b, patterns)
    }
}

/// Names of the sides by turns, so that all of them are one class.
fn one_class(mut b: Builder, size: usize) -> Pair {
    let mut equated = Equated::default();
    for place in 0..size / 4 - 2 {
        equated.put(0, b.name(place), b.name(place));
        equated.put(0, b.name(place + 1), b.name(place));
    }
    equated.made(b)
}

/// Each name holds the next, of the other side, twice.
fn doubling(mut b: Builder, size: usize) -> Pair {
    let mut equated = Equated::default();
    for place in (0..).take_while(|place| 8 << place <= size) {
        let (name, next) = (b.name(place / 2), b.array_of(2, |b, _| b.name((place + 1) / 2)));
        equated.put(place % 2, name, next);
    }
    equated.made(b)
}

/// A name holds the next in so many arrays, of the other side.
fn link(
    b: &mut Builder,
    equated: &mut Equated,
    side: usize,
    from: usize,
    place: usize,
    levels: usize,
) {
    let (name, next) = (b.name(from + place / 2), b.name(from + (place + 1) / 2));
    let held = b.inside(next, levels);
    equated.put(side, name, held);
}

fn chain(mut b: Builder, size: usize) -> Pair {
    let mut equated = Equated::default();
    for place in 0..(size - 2) / 3 {
        link(&mut b, &mut equated, place % 2, 0, place, 1);
    }
    equated.made(b)
}

/// A round joins two arrays, and the next two stand behind them.
fn two_chains(mut b: Builder, size: usize) -> Pair {
    let mut equated = Equated::default();
    equated.put(0, b.name(0), b.name(64));
    for place in 0..(size - 4) / 6 {
        link(&mut b, &mut equated, place % 2, 0, place, 1);
        link(&mut b, &mut equated, 1 - place % 2, 64, place, 1);
    }
    equated.made(b)
}

/// A class of many places is a wide array, the size of which is counted for each place and level of
/// a deep chain.
fn wide_class(mut b: Builder, size: usize) -> Pair {
    let (rows, columns, links) = (12, size / 42, size / 102);
    let mut equated = Equated::default();
    for row in 0..rows {
        let name = b.name(0);
        let item = |b: &mut Builder, _| if row > 0 { b.wildcard() } else { b.name(0) };
        let array = b.array_of(columns, item);
        equated.put(0, name, array);
    }
    for place in 0..links {
        link(&mut b, &mut equated, place % 2, 1, place, DEPTH - 1);
    }
    let wide = b.array_of(size - b.draft.nodes.len() - 4, |b, _| b.number());
    equated.put(1, b.name(0), wide);
    equated.made(b)
}

fn objects(mut b: Builder, size: usize, key: fn(&mut Builder, usize) -> u32) -> Pair {
    let patterns =
        [false, true].map(|reversed| b.object(size / 4 - 1, reversed, key, |b, _| b.wildcard()));
    made(b, patterns)
}

fn fields(b: Builder, size: usize) -> Pair {
    objects(b, size, Builder::short_string)
}

fn long_fields(b: Builder, size: usize) -> Pair {
    objects(b, size, Builder::long_string)
}

fn with_a_name(mut b: Builder, size: usize, part: fn(&mut Builder, usize) -> u32) -> Pair {
    let (parts, name) = (b.array_of(size - 2, part), b.name(0));
    made(b, [parts, name])
}

fn long_strings(b: Builder, size: usize) -> Pair {
    with_a_name(b, size, Builder::long_string)
}

fn long_raw_strings(b: Builder, size: usize) -> Pair {
    with_a_name(b, size, Builder::long_raw_string)
}
