//! A rule body in one call, against a planning call for each of its lines from the marks that the
//! lines before leave.

use super::builder::{Builder, ARRAY, BOUND, OBJECT, SET};
use super::lent::{Lent, Space, MOST_NAMES, PLANNED};
use super::{within_bar, SAMPLES};
use crate::clock::{by_turns, median, ratio};
use crate::inputs::kitchen_drafts;
use crate::report;
use oracle::answer::CAPACITY;
use oracle::bodies::case::LINE_WORDS;
use oracle::c_calls::teluddru_plan_body;
use std::hint::black_box;

const LINES: usize = 64;
const SIZES: [usize; 3] = [16, 32, LINES];

const COLON_EQUALS: u32 = 2;
const EQUALS: u32 = 3;
const SOME_IN: u32 = 4;
const INDEX: u32 = 5;

/// Tables, the lines of a body, and the marks before each line.
struct Body {
    lent: Lent,
    lines: Vec<u32>,
    marks: Vec<Vec<u8>>,
}

pub fn times() -> Result<Vec<String>, String> {
    let head =
        "| 64 lines | 16 of them µs | 32 of them µs | body µs | planning calls µs | body ÷ calls |";
    let shapes = SHAPES.iter().map(|&(name, mark, shape)| {
        let (lent, lines) = shape(Builder::new());
        line(name, &mut [Body::new(lent, lines, mark)], &SIZES)
    });
    report::table(head, std::iter::once_with(kitchen_line).chain(shapes))
}

/// Each rule of the kitchen that a body can have and that needs no line before it.
fn kitchen_line() -> Result<String, String> {
    let space = &mut Space::for_plans(Some(CAPACITY));
    let bodies = kitchen_drafts().into_iter().map(|draft| {
        let (lent, [first, second, key]) = (Lent::of(&draft), draft.roots);
        Body { lent, lines: vec![draft.operation, first, second, key], marks: Vec::new() }
    });
    let mut bodies: Vec<Body> = bodies.collect();
    bodies.retain_mut(|body| body.plan(1, &mut body.lent.marks.clone(), space) == PLANNED);
    bodies.iter_mut().for_each(|body| body.marks = vec![body.lent.marks.clone()]);
    line(&format!("kitchen: {} rules, a line each", bodies.len()), &mut bodies, &[1])
}

fn line(name: &str, bodies: &mut [Body], sizes: &[usize]) -> Result<String, String> {
    let space = &mut Space::for_plans(Some(CAPACITY));
    bodies.iter_mut().try_for_each(|body| body.prepare(name, space))?;
    let mut after = [0; MOST_NAMES];
    let times = by_turns(sizes.len() + 1, SAMPLES, |job| {
        for body in bodies.iter_mut() {
            match sizes.get(job) {
                Some(&lines) => drop(black_box(body.plan(lines, &mut after, space))),
                None => body.plan_lines(space),
            }
        }
    });
    let [.., whole, calls] = &times[..] else { unreachable!("at least one size") };
    let times_of = ratio(whole, calls);
    let medians: Vec<Option<f64>> = times.iter().map(|times| median(times.clone())).collect();
    within_bar(name, &medians, bodies.len())?;
    let mut columns = vec![report::micros(None); SIZES.len() - sizes.len()];
    columns.extend(medians.into_iter().map(report::micros));
    columns.push(report::times(times_of));
    Ok(report::line(name, &columns))
}

impl Body {
    fn new(mut lent: Lent, lines: Vec<u32>, mark: u32) -> Self {
        lent.marks.fill(mark as u8);
        Self { lent, lines, marks: Vec::new() }
    }

    /// Plans so many lines with the marks at the start; `after` has those afterwards.
    fn plan(&mut self, lines: usize, after: &mut [u8], space: &mut Space) -> u32 {
        let Lent { words, marks, scheduler, .. } = &mut self.lent;
        let after = &mut after[..marks.len()];
        after.copy_from_slice(marks);
        let lines = &mut self.lines[..lines * LINE_WORDS];
        teluddru_plan_body(words, after, *scheduler, lines, &mut space.plan, &mut space.answer)
    }

    fn plan_lines(&mut self, space: &mut Space) {
        for line in 0..self.marks.len() {
            let words = &self.lines[line * LINE_WORDS..(line + 1) * LINE_WORDS];
            self.lent.operation = words[0];
            self.lent.roots.copy_from_slice(&words[1..]);
            std::mem::swap(&mut self.lent.marks, &mut self.marks[line]);
            black_box(self.lent.plan(space));
            std::mem::swap(&mut self.lent.marks, &mut self.marks[line]);
        }
    }

    /// The marks before each line. Both ways have to leave the same last plan.
    fn prepare(&mut self, name: &str, space: &mut Space) -> Result<(), String> {
        let lines = self.lines.len() / LINE_WORDS;
        self.marks = vec![self.lent.marks.clone()];
        for line in 1..=lines {
            let mut after = self.lent.marks.clone();
            let told = self.plan(line, &mut after, space);
            if told != PLANNED {
                return Err(format!("{name}: {line} lines are answered with {told}"));
            }
            self.marks.push(after);
        }
        self.marks.pop();
        let last = space.plan.clone();
        self.plan_lines(space);
        if last == space.plan {
            Ok(())
        } else {
            Err(format!("{name}: the plans differ"))
        }
    }
}

/// Tables, and the words of the lines.
type Shape = fn(Builder) -> (Lent, Vec<u32>);

const SHAPES: [(&str, u32, Shape); 8] = [
    ("index of 500 names, bound by the first line", 0, index_of_names),
    ("250 `_` := 250 names", BOUND, assigned_names),
    ("250 names = 250 names, equality check", BOUND, equality_of_names),
    ("250 pairs, `_` with names", BOUND, pairs_of_names),
    ("`_` = a set of 500 names", BOUND, set_of_names),
    ("some `_` in 500 names", BOUND, items_of_names),
    ("index of 250 computed keys", BOUND, computed_keys),
    ("64 lines of 8 nodes, each reads those before", 0, lines_of_eight),
];

type Leaf = fn(&mut Builder, usize) -> u32;

fn name(b: &mut Builder, place: usize) -> u32 {
    b.name(place % (MOST_NAMES - 1))
}

fn wildcard(b: &mut Builder, _place: usize) -> u32 {
    b.wildcard()
}

fn by_turns_from(first: Leaf, second: Leaf) -> impl Fn(&mut Builder, usize) -> u32 {
    move |b, place| if place % 2 == 0 { first(b, place) } else { second(b, place) }
}

/// So many lines of one operation on one or two roots.
fn lines_of(b: Builder, operation: u32, first: u32, second: u32) -> (Lent, Vec<u32>) {
    (b.lent([0; 3]), [operation, first, second, 0].repeat(LINES))
}

fn index_of_names(mut b: Builder) -> (Lent, Vec<u32>) {
    let names = b.array_of(500, name);
    lines_of(b, INDEX, names, 0)
}

fn assigned_names(mut b: Builder) -> (Lent, Vec<u32>) {
    let (left, right) = (b.array_of(250, wildcard), b.array_of(250, name));
    lines_of(b, COLON_EQUALS, left, right)
}

fn equality_of_names(mut b: Builder) -> (Lent, Vec<u32>) {
    let (left, right) = (b.array_of(250, name), b.array_of(250, name));
    lines_of(b, EQUALS, left, right)
}

fn pairs_of_names(mut b: Builder) -> (Lent, Vec<u32>) {
    let left = b.array_of(250, by_turns_from(name, wildcard));
    let right = b.array_of(250, by_turns_from(wildcard, name));
    lines_of(b, EQUALS, left, right)
}

fn set_of_names(mut b: Builder) -> (Lent, Vec<u32>) {
    let left = b.wildcard();
    let items: Vec<u32> = (0..500).map(|place| name(&mut b, place)).collect();
    let right = b.parent(SET, &items);
    lines_of(b, EQUALS, left, right)
}

fn items_of_names(mut b: Builder) -> (Lent, Vec<u32>) {
    let (value, items) = (b.wildcard(), b.array_of(500, name));
    lines_of(b, SOME_IN, value, items)
}

fn computed_keys(mut b: Builder) -> (Lent, Vec<u32>) {
    let part = by_turns_from(name, wildcard);
    let parts: Vec<u32> = (0..500).map(|place| part(&mut b, place)).collect();
    let object = b.parent(OBJECT, &parts);
    lines_of(b, INDEX, object, 0)
}

/// Each line binds its own name to an array that reads the names before.
fn lines_of_eight(mut b: Builder) -> (Lent, Vec<u32>) {
    let mut lines = Vec::new();
    for line in 0..LINES {
        let left = b.name(line);
        let right = match line {
            0 => b.number(),
            _ => {
                let items: Vec<u32> = (0..6).map(|place| b.name(place % line)).collect();
                b.parent(ARRAY, &items)
            }
        };
        lines.extend([COLON_EQUALS, left, right, 0]);
    }
    (b.lent([0; 3]), lines)
}
