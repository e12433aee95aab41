//! The words of a value, as document 02, slip 13, has them.

use crate::matching::reading::literal;
use crate::matching::value::Literal;
use crate::refusals::unification::{Term, Unified};
use crate::sheets::draft::{Draft, END, START};
use std::collections::BTreeMap;
use std::rc::Rc;

const NULL: [u32; 5] = [5, 0, 0, 0, 0];
const ARRAY: u32 = 7;
const OBJECT: u32 = 9;

#[derive(Clone, Debug, Default)]
pub struct Written {
    pub nodes: Vec<[u32; 5]>,
    pub children: Vec<u32>,
}

/// A value of few nodes behind the tables.
pub fn written(tables: &Draft, overlap: &Unified) -> Written {
    let mut lowest = BTreeMap::new();
    for node in tables.nodes.iter().rev() {
        lowest.extend(literal(tables, node).map(|literal| (literal, without_span(*node))));
    }
    let mut writer = Writer { tables, overlap, lowest, written: Written::default() };
    writer.term(&overlap.whole);
    writer.written
}

fn without_span(mut node: [u32; 5]) -> [u32; 5] {
    node[START] = 0;
    node[END] = 0;
    node
}

struct Writer<'a> {
    tables: &'a Draft,
    overlap: &'a Unified,
    /// Each literal of the tables with the words of its lowest-numbered node.
    lowest: BTreeMap<Literal, [u32; 5]>,
    written: Written,
}

impl Writer<'_> {
    /// The part with all below it; gives its node's number.
    fn term(&mut self, term: &Rc<Term>) -> u32 {
        match &*self.overlap.resolved(term) {
            Term::Hole(_) => self.node(NULL),
            Term::Literal(literal) => self.literal(literal),
            Term::Array(items) => {
                let items: Vec<u32> = items.iter().map(|item| self.term(item)).collect();
                self.parent(ARRAY, &items, items.len())
            }
            Term::Object(fields) => {
                let field = |(key, value)| [self.literal(key), self.term(value)];
                let parts: Vec<u32> = fields.iter().flat_map(field).collect();
                self.parent(OBJECT, &parts, fields.len())
            }
        }
    }

    fn literal(&mut self, literal: &Literal) -> u32 {
        self.node(self.lowest[literal])
    }

    /// Child entries go on from those of the tables; an empty parent's place is where its own would be.
    fn parent(&mut self, kind: u32, parts: &[u32], count: usize) -> u32 {
        let first = self.tables.children.len() + self.written.children.len();
        self.written.children.extend(parts);
        self.node([kind, 0, 0, first as u32, count as u32])
    }

    fn node(&mut self, words: [u32; 5]) -> u32 {
        self.written.nodes.push(words);
        (self.tables.nodes.len() + self.written.nodes.len()) as u32
    }
}
