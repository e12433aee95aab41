//! Where a run misses first, read anew: fields and items as the pattern has them, and of an object
//! the keys before the fields.

use crate::answer::ENTRY_WORDS;
use crate::matching::case::Case;
use crate::matching::entry::{MATCH, NO_MATCH};
use crate::matching::expected::{expected as expected_run, Expected};
use crate::matching::reading::{expr, value_at, Expr};
use crate::matching::value::{equal, Literal};
use crate::sheets::draft::{COUNT, FIRST, KIND};
use std::collections::BTreeMap;

/// Why, by the numbers of include/teluddru.h.
const NAME: u32 = 1;
const LITERAL: u32 = 2;
const NO_ARRAY: u32 = 3;
const LENGTH: u32 = 4;
const NO_OBJECT: u32 = 5;
const KEY_MISSING: u32 = 6;
const KEY_TOO_MANY: u32 = 7;

const ARRAY: u32 = 7;
const OBJECT: u32 = 9;
/// As many entries as a plan can have.
const MOST_ENTRIES: usize = 512;

/// The value's node, the pattern's node, why.
type Miss = [u32; 3];

/// The answer's four numbers: a run's, of a buffer in which every plan fits, and the miss.
pub fn expected(case: &Case) -> [u32; 4] {
    let roomy = Case { room: ENTRY_WORDS * MOST_ENTRIES, ..case.clone() };
    let ran = match expected_run(&roomy) {
        Expected::Refused(told) => return told,
        Expected::Ran(ran) => ran,
    };
    let miss = Walk { case, names: known(case) }.miss(case.pattern(), case.value());
    assert_eq!(miss.is_none(), !ran.fillings.is_empty(), "a filling and a miss: {case:?}");
    miss.map_or([MATCH, 0, 0, 0], |[value, pattern, why]| [NO_MATCH, value, pattern, why])
}

/// The nodes of the known names' values.
fn known(case: &Case) -> BTreeMap<u32, u32> {
    let names = (1..=case.draft.names.len() as u32).filter(|&name| !case.is_unbound(name));
    let listed = names.map(|name| (name, case.values[name as usize - 1]));
    listed.filter(|&(_, node)| node != 0).collect()
}

struct Walk<'a> {
    case: &'a Case,
    names: BTreeMap<u32, u32>,
}

impl Walk<'_> {
    fn miss(&mut self, pattern: u32, value: u32) -> Option<Miss> {
        let here = |why| Some([value, pattern, why]);
        let (kind, count) = (self.word(value, KIND), self.word(value, COUNT));
        match expr(self.case, pattern) {
            Expr::Underscore => None,
            Expr::Name(name) => match self.names.get(&name).copied() {
                Some(held) if self.equal(held, value) => None,
                Some(_) => here(NAME),
                None => {
                    self.names.insert(name, value);
                    None
                }
            },
            Expr::Literal(_) if self.equal(pattern, value) => None,
            Expr::Literal(_) => here(LITERAL),
            Expr::Array(_) if kind != ARRAY => here(NO_ARRAY),
            Expr::Array(items) if items.len() != count as usize => here(LENGTH),
            Expr::Array(items) => (0..items.len() as u32)
                .find_map(|place| self.miss(self.child(pattern, place), self.child(value, place))),
            Expr::Object(_) if kind != OBJECT => here(NO_OBJECT),
            Expr::Object(_) => {
                self.key_miss(pattern, value).or_else(|| self.fields(pattern, value))
            }
            Expr::Other => unreachable!("a simple pattern"),
        }
    }

    /// The least key that the value lacks, then the first that it has too many.
    fn key_miss(&self, pattern: u32, value: u32) -> Option<Miss> {
        let (asked, has) = (self.keys(pattern), self.keys(value));
        let lacks = |keys: &[(Literal, u32)], key: &Literal| keys.iter().all(|(own, _)| own != key);
        let missing = asked.iter().filter(|(key, _)| lacks(&has, key)).min();
        let too_many = has.iter().find(|(key, _)| lacks(&asked, key));
        missing
            .map(|&(_, key)| [value, key, KEY_MISSING])
            .or(too_many.map(|&(_, key)| [key, pattern, KEY_TOO_MANY]))
    }

    fn fields(&mut self, pattern: u32, value: u32) -> Option<Miss> {
        let has = self.keys(value);
        self.keys(pattern).into_iter().enumerate().find_map(|(place, (key, _))| {
            let found = has.iter().position(|(own, _)| *own == key).expect("the keys are the same");
            let value_of = |object, place: usize| self.child(object, 2 * place as u32 + 1);
            self.miss(value_of(pattern, place), value_of(value, found))
        })
    }

    /// An object's keys as written, each with its node.
    fn keys(&self, object: u32) -> Vec<(Literal, u32)> {
        let nodes = (0..self.word(object, COUNT)).map(|field| self.child(object, 2 * field));
        let literal = |node| match expr(self.case, node) {
            Expr::Literal(literal) => (literal, node),
            _ => unreachable!("a literal key"),
        };
        nodes.map(literal).collect()
    }

    fn equal(&self, one: u32, other: u32) -> bool {
        let value = |node| value_at(self.case, node).expect("it is a value");
        equal(&value(one), &value(other))
    }

    fn word(&self, node: u32, place: usize) -> u32 {
        self.case.draft.nodes[node as usize - 1][place]
    }

    fn child(&self, node: u32, place: u32) -> u32 {
        self.case.draft.children[(self.word(node, FIRST) + place) as usize]
    }
}
