//! Tables made node by node, as rule text can't say them: strings that overlap, and values that are
//! a name's and stand in another place too.

use super::lent::Lent;
use oracle::sheets::Draft;

const STRING: u32 = 1;
const RAW_STRING: u32 = 2;
const NUMBER: u32 = 3;
const NAME: u32 = 6;
pub const ARRAY: u32 = 7;
pub const SET: u32 = 8;
pub const OBJECT: u32 = 9;
pub const PATTERN: u32 = 1;
const RESPECT_PARENT: u32 = 1;
pub const BOUND: u32 = 1;

/// Levels of the deep shapes.
pub const DEPTH: usize = 30;

/// Long strings begin one byte apart in a store of many `a`, so that they differ late.
pub const LONG_STRING: usize = 7680;
const LONG_RAW_STRING: usize = 15600;
/// Behind the long raw strings stand the names.
const TEXT: usize = 16128;

pub struct Builder {
    pub draft: Draft,
    /// The values of known names.
    values: Vec<(u32, u32)>,
}

impl Builder {
    pub fn new() -> Self {
        let mut text = vec![b'a'; TEXT];
        text[LONG_RAW_STRING] = b'b';
        let mut strings = vec![b'a'; LONG_STRING];
        // Short strings, of two bytes, stand behind the long ones.
        strings.extend(
            (0..256u32).flat_map(|place| [b'b' + (place / 20) as u8, b'b' + (place % 20) as u8]),
        );
        let (operation, scoping) = (PATTERN, RESPECT_PARENT);
        let draft =
            Draft { operation, scoping, numbers: vec![1], strings, text, ..Draft::default() };
        Self { draft, values: Vec::new() }
    }

    fn node(&mut self, words: [u32; 5]) -> u32 {
        self.draft.nodes.push(words);
        self.draft.nodes.len() as u32
    }

    pub fn number(&mut self) -> u32 {
        self.node([NUMBER, 0, 0, 0, 0])
    }

    pub fn long_string(&mut self, place: usize) -> u32 {
        self.node([STRING, 0, 0, place as u32, LONG_STRING as u32])
    }

    pub fn short_string(&mut self, place: usize) -> u32 {
        self.node([STRING, 0, 0, (LONG_STRING + 2 * place) as u32, 2])
    }

    pub fn long_raw_string(&mut self, place: usize) -> u32 {
        self.node([RAW_STRING, 0, 0, place as u32, LONG_RAW_STRING as u32])
    }

    /// A name of two letters.
    pub fn name(&mut self, place: usize) -> u32 {
        self.named(&[b'c' + (place / 20) as u8, b'c' + (place % 20) as u8])
    }

    pub fn wildcard(&mut self) -> u32 {
        self.named(b"_")
    }

    fn named(&mut self, bytes: &[u8]) -> u32 {
        let text = &self.draft.text;
        let is_it = |&[start, length, _]: &[u32; 3]| {
            text[start as usize..(start + length) as usize] == *bytes
        };
        let met = self.draft.names.iter().position(is_it);
        let name = met.unwrap_or_else(|| self.add_name(bytes));
        let [start, length, _] = self.draft.names[name];
        self.node([NAME, start, start + length, name as u32 + 1, 0])
    }

    fn add_name(&mut self, bytes: &[u8]) -> usize {
        let start = self.draft.text.len() as u32;
        self.draft.text.extend(bytes);
        self.draft.names.push([start, bytes.len() as u32, 0]);
        self.draft.names.len() - 1
    }

    /// Makes the name of a node known, with a value.
    pub fn know(&mut self, name: u32, value: u32) {
        let number = self.draft.nodes[name as usize - 1][3];
        self.draft.names[number as usize - 1][2] = BOUND;
        self.values.push((number, value));
    }

    pub fn parent(&mut self, kind: u32, children: &[u32]) -> u32 {
        let first = self.draft.children.len() as u32;
        self.draft.children.extend(children);
        let width = if kind == OBJECT { 2 } else { 1 };
        self.node([kind, 0, 0, first, children.len() as u32 / width])
    }

    pub fn array(&mut self, items: &[u32]) -> u32 {
        self.parent(ARRAY, items)
    }

    /// An array of so many items, each by its place.
    pub fn array_of(&mut self, count: usize, item: impl Fn(&mut Self, usize) -> u32) -> u32 {
        let items: Vec<u32> = (0..count).map(|place| item(self, place)).collect();
        self.array(&items)
    }

    /// An array in so many arrays.
    pub fn inside(&mut self, inner: u32, levels: usize) -> u32 {
        (0..levels).fold(inner, |inner, _| self.array(&[inner]))
    }

    /// An array of one name and one of numbers, each in so many arrays; nodes in all.
    pub fn name_and_numbers(&mut self, nodes: usize, levels: usize) -> [u32; 2] {
        let count = nodes / 2 - levels - 1;
        let names = self.array_of(count, |b, _| b.name(0));
        let names = self.inside(names, levels);
        let numbers = self.array_of(count, |b, _| b.number());
        [names, self.inside(numbers, levels)]
    }

    /// An object of so many fields, its keys in order or the other way round.
    pub fn object(
        &mut self,
        count: usize,
        reversed: bool,
        key: fn(&mut Self, usize) -> u32,
        value: fn(&mut Self, usize) -> u32,
    ) -> u32 {
        let place = |field| if reversed { count - 1 - field } else { field };
        let fields = (0..count).flat_map(|field| [key(self, place(field)), value(self, field)]);
        let fields: Vec<u32> = fields.collect();
        self.parent(OBJECT, &fields)
    }

    /// The tables with these roots.
    pub fn lent(mut self, roots: [u32; 3]) -> Lent {
        self.draft.roots = roots;
        let mut lent = Lent::of(&self.draft);
        for (name, value) in self.values {
            lent.values[name as usize - 1] = value;
        }
        lent
    }
}
