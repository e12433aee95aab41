//! What document 02, slip 13, says of two patterns, read anew: known names are their values, the
//! names of the sides are apart, and what unification leaves open is null.

use super::case::Pair;
use super::entry::{FOUND, NONE, TOO_LARGE};
use super::writing::{written, Written};
use crate::matching::case::Case;
use crate::matching::expected::{alone, checked, is_listed, Checked};
use crate::matching::reading::expr;
use crate::refusals::unification::{unified, Side, Term, Unequal, Unified};
use std::collections::BTreeMap;
use std::rc::Rc;

const MOST_NODES: u64 = 512;
const MOST_DEPTH: u64 = 32;

#[derive(Debug)]
pub enum Expected {
    /// The place of the side, and number, place and two counts.
    Refused(usize, [u32; 4]),
    None(Unequal),
    TooLarge(Size),
    Found(Written, Size),
}

impl Expected {
    /// The four numbers of the answer.
    pub fn told(&self, pair: &Pair) -> [u32; 4] {
        match self {
            Self::Refused(_, told) => *told,
            Self::None(_) => alone(NONE),
            Self::TooLarge(_) => alone(TOO_LARGE),
            Self::Found(value, _) => {
                let [nodes, entries] = [value.nodes.len(), value.children.len()];
                let last = pair.sides[0].draft.nodes.len() + nodes;
                [FOUND, last as u32, nodes as u32, entries as u32]
            }
        }
    }
}

/// Of a value; counts stop at the highest number, for names can hold each other.
#[derive(Clone, Copy, Debug, PartialEq, Eq)]
pub struct Size {
    pub nodes: u64,
    pub depth: u64,
}

impl Size {
    const LEAF: Self = Self { nodes: 1, depth: 1 };

    /// Each node but the topmost is a child.
    pub fn entries(self) -> u64 {
        self.nodes - 1
    }

    /// What 36 is told for: space for nodes, for child entries, the limits of nodes and of depth.
    pub fn excess(self, pair: &Pair) -> [bool; 4] {
        [
            self.nodes > pair.node_room as u64 / 5,
            self.entries() > pair.child_room as u64,
            self.nodes > MOST_NODES,
            self.depth > MOST_DEPTH,
        ]
    }
}

pub fn expected(pair: &Pair) -> Expected {
    let overlap = match overlap(pair) {
        Ok(overlap) => overlap,
        Err(expected) => return expected,
    };
    let size = size(&overlap);
    if size.excess(pair).contains(&true) {
        return Expected::TooLarge(size);
    }
    Expected::Found(written(&pair.sides[0].draft, &overlap), size)
}

/// What both patterns match: 7 of either side comes first, then a run's refusals to 23 of the first
/// side, then those of the second.
pub fn overlap(pair: &Pair) -> Result<Unified, Expected> {
    if let Some(place) = pair.sides.iter().position(|side| !is_listed(side)) {
        return Err(Expected::Refused(place, alone(7)));
    }
    let [one, other] = &pair.sides;
    let first = checked(one, None).map_err(|told| Expected::Refused(0, told))?;
    let second = checked(other, None).map_err(|told| Expected::Refused(1, told))?;
    unified(&side(one, &first), &side(other, &second)).map_err(Expected::None)
}

fn side<'a>(case: &Case, checked: &'a Checked) -> Side<'a> {
    let known = checked.known.iter().map(|(&name, &node)| (name, expr(case, node)));
    Side { pattern: &checked.pattern, known: known.collect() }
}

/// Of the value with nulls for what is open.
pub fn size(overlap: &Unified) -> Size {
    size_of(overlap, &overlap.whole, &mut BTreeMap::new())
}

/// Terms that stand in several places are counted once, and their sizes as often as they stand.
fn size_of(overlap: &Unified, term: &Rc<Term>, counted: &mut BTreeMap<*const Term, Size>) -> Size {
    let term = overlap.resolved(term);
    if let Some(size) = counted.get(&Rc::as_ptr(&term)) {
        return *size;
    }
    let mut part = |term| size_of(overlap, term, counted);
    let parts: Vec<Size> = match &*term {
        Term::Hole(_) | Term::Literal(_) => Vec::new(),
        Term::Array(items) => items.iter().map(part).collect(),
        Term::Object(fields) => {
            fields.values().flat_map(|value| [Size::LEAF, part(value)]).collect()
        }
    };
    let size = Size {
        nodes: parts.iter().fold(1, |sum, part| sum.saturating_add(part.nodes)),
        depth: 1 + parts.iter().map(|part| part.depth).max().unwrap_or(0),
    };
    counted.insert(Rc::as_ptr(&term), size);
    size
}
