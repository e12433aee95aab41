//! How often each answer was expected, and of what pairs.

use super::case::Pair;
use super::reading::{Expected, Size};
use crate::matching::expected::checked;
use crate::matching::filling::names;
use crate::matching::reading::{literal_keys, Expr};
use crate::refusals::unification::Unequal;
use std::collections::{BTreeMap, BTreeSet};
use std::fmt;

/// What an answer is given for.
#[derive(Clone, Copy, Debug, PartialEq, Eq, PartialOrd, Ord)]
enum Row {
    Found,
    Shapes,
    HoldsItself,
    /// 36 for one thing alone, or for several.
    Nodes,
    Entries,
    MostNodes,
    MostDepth,
    Several,
}

const ROWS: [(Row, &str); 8] = [
    (Row::Found, "found"),
    (Row::Shapes, "none, shapes"),
    (Row::HoldsItself, "none, holds itself"),
    (Row::Nodes, "36, nodes lent"),
    (Row::Entries, "36, entries lent"),
    (Row::MostNodes, "36, 512 nodes"),
    (Row::MostDepth, "36, depth 32"),
    (Row::Several, "36, several"),
];

const SIDES: [&str; 2] = ["first", "second"];
/// The refusals of each side.
const REFUSALS: [&[u32]; 2] = [&[1, 2, 3, 4, 5, 7, 20, 21, 22, 23], &[2, 5, 7, 20, 21, 22, 23]];

/// What the patterns have; then, of a value alone: deep, large, run on, at the limit with the tables.
const HEADS: [&str; 11] =
    ["known", "alike", "repeat", "_", "order", "one root", "deep", "large", "run", "limit", "all"];
const ONE_ROOT: usize = 5;

const MOST_NODES: usize = 512;
const DEEP: u64 = 30;
const LARGE: u64 = 400;

#[derive(Default)]
pub struct Tally {
    counts: BTreeMap<(Row, &'static str), u64>,
    refusals: BTreeMap<(usize, u32), u64>,
}

impl Tally {
    /// `run`: both patterns were run on the value.
    pub fn add(&mut self, pair: &Pair, expected: &Expected, run: bool) {
        let row = match expected {
            Expected::Refused(place, [number, ..]) => {
                *self.refusals.entry((*place, *number)).or_default() += 1;
                return;
            }
            Expected::None(Unequal::Shapes) => Row::Shapes,
            Expected::None(Unequal::HoldsItself) => Row::HoldsItself,
            Expected::TooLarge(size) => excess(pair, *size),
            Expected::Found(..) => Row::Found,
        };
        let mut heads = heads(pair);
        if let Expected::Found(value, size) = expected {
            let together = pair.sides[0].draft.nodes.len() + value.nodes.len();
            heads.extend((size.depth >= DEEP).then_some("deep"));
            heads.extend((size.nodes >= LARGE).then_some("large"));
            heads.extend(run.then_some("run"));
            heads.extend((together == MOST_NODES).then_some("limit"));
        }
        heads.push("all");
        heads.into_iter().for_each(|head| *self.counts.entry((row, head)).or_default() += 1);
    }

    fn count(&self, row: Row, head: &'static str) -> u64 {
        self.counts.get(&(row, head)).copied().unwrap_or(0)
    }

    /// How many were found, had none, were too large and were refused.
    pub fn answers(&self) -> [u64; 4] {
        let all = |rows: &[Row]| rows.iter().map(|&row| self.count(row, "all")).sum();
        let none = [Row::Shapes, Row::HoldsItself];
        let large = [Row::Nodes, Row::Entries, Row::MostNodes, Row::MostDepth, Row::Several];
        [all(&[Row::Found]), all(&none), all(&large), self.refusals.values().sum()]
    }

    /// What a run of the comparison has to meet, and has not.
    pub fn never_met(&self) -> Vec<String> {
        let mut unmet = Vec::new();
        for (row, name) in ROWS {
            let heads = wanted(row).iter().filter(|&head| self.count(row, head) == 0);
            unmet.extend(heads.map(|head| format!("{name} ({head})")));
        }
        for (place, numbers) in REFUSALS.iter().enumerate() {
            let numbers =
                numbers.iter().filter(|&number| !self.refusals.contains_key(&(place, *number)));
            unmet.extend(numbers.map(|number| format!("{number} of the {} side", SIDES[place])));
        }
        unmet
    }

    fn refused(&self, side: usize) -> String {
        let own = self.refusals.iter().filter(|((place, _), _)| *place == side);
        let own: Vec<String> =
            own.map(|((_, number), count)| format!("{number} ({count})")).collect();
        own.join(", ")
    }
}

/// A pattern and itself have no value that would have to hold itself, whatever names are known.
fn wanted(row: Row) -> &'static [&'static str] {
    match row {
        Row::Found => &HEADS,
        Row::Shapes => &HEADS[..ONE_ROOT + 1],
        Row::HoldsItself => &HEADS[..ONE_ROOT],
        _ => &HEADS[HEADS.len() - 1..],
    }
}

fn excess(pair: &Pair, size: Size) -> Row {
    match size.excess(pair) {
        [true, false, false, false] => Row::Nodes,
        [false, true, false, false] => Row::Entries,
        [false, false, true, false] => Row::MostNodes,
        [false, false, false, true] => Row::MostDepth,
        _ => Row::Several,
    }
}

/// What the patterns of sides that pass their checks have.
fn heads(pair: &Pair) -> Vec<&'static str> {
    let sides = pair.sides.each_ref().map(|case| checked(case, None).expect("it passed"));
    let met = sides.each_ref().map(|side| names(&side.pattern));
    let unknown = [0, 1].map(|place| {
        let unknown = met[place].0.iter().filter(|name| !sides[place].known.contains_key(name));
        unknown.copied().collect::<Vec<u32>>()
    });
    let [one, other] =
        unknown.each_ref().map(|names| names.iter().copied().collect::<BTreeSet<u32>>());
    let found = [
        sides.iter().any(|side| !side.known.is_empty()),
        !one.is_disjoint(&other),
        unknown[0].len() > one.len() || unknown[1].len() > other.len(),
        met.iter().any(|(_, underscores)| *underscores > 0),
        sides.iter().any(|side| is_unordered(&side.pattern)),
        pair.has_one_root(),
    ];
    HEADS.iter().zip(found).filter(|(_, is)| *is).map(|(head, _)| *head).collect()
}

/// Whether an object's fields are not written in the order of keys.
fn is_unordered(pattern: &Expr) -> bool {
    match pattern {
        Expr::Array(items) => items.iter().any(is_unordered),
        Expr::Object(fields) => {
            !literal_keys(fields).is_some_and(|keys| keys.is_sorted())
                || fields.iter().any(|(_, value)| is_unordered(value))
        }
        _ => false,
    }
}

impl fmt::Display for Tally {
    fn fmt(&self, f: &mut fmt::Formatter<'_>) -> fmt::Result {
        write!(f, "{:19}", "")?;
        HEADS.iter().try_for_each(|head| write!(f, "{head:>9}"))?;
        for (row, name) in ROWS {
            write!(f, "\n{name:19}")?;
            HEADS.iter().try_for_each(|head| write!(f, "{:9}", self.count(row, head)))?;
        }
        for (place, side) in SIDES.iter().enumerate() {
            write!(f, "\nrefusals of the {side} side: {}", self.refused(place))?;
        }
        writeln!(f)
    }
}
