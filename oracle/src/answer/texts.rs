//! Bytes of the tables as the Rust's strings.

use super::tables::{kind, Name, Node, Tables};
use planner::Rc;
use std::ops::Range;

/// Where a store, a name or a string is no UTF-8, each byte of all of them stands as the char of its
/// number: that keeps their equality and their order, and the planner asks for nothing else.
pub struct Texts<'a> {
    tables: &'a Tables<'a>,
    /// The string store and the rule text.
    utf8: Option<[&'a str; 2]>,
    names: Vec<Rc<str>>,
    none: Rc<str>,
}

const STRINGS: usize = 0;
const TEXT: usize = 1;

type Place = (usize, Range<usize>);

impl<'a> Texts<'a> {
    pub fn new(tables: &'a Tables) -> Self {
        let texts = Self { tables, utf8: utf8(tables), names: Vec::new(), none: "".into() };
        let names = tables.names.iter().map(|name| texts.decode(place_of_name(name))).collect();
        Self { names, ..texts }
    }

    pub fn names(&self) -> &[Rc<str>] {
        &self.names
    }

    /// The text of a name node, empty for any other.
    pub fn of_name(&self, node: &Node) -> Rc<str> {
        match node.kind {
            kind::NAME => self.names[node.first as usize - 1].clone(),
            _ => self.none.clone(),
        }
    }

    /// The bytes of a string or a raw string.
    pub fn of_string(&self, node: &Node) -> Rc<str> {
        self.decode(place_of_string(node))
    }

    fn decode(&self, (store, range): Place) -> Rc<str> {
        match self.utf8 {
            Some(stores) => stores[store][range].into(),
            None => {
                let bytes = [self.tables.strings, self.tables.text][store][range].iter();
                bytes.copied().map(char::from).collect::<String>().into()
            }
        }
    }
}

/// Both stores, where they and all that is used of them are UTF-8.
fn utf8<'a>(tables: &'a Tables) -> Option<[&'a str; 2]> {
    let text = |bytes: &'a [u8]| std::str::from_utf8(bytes).ok();
    let stores = [text(tables.strings)?, text(tables.text)?];
    let is_string = |node: &&Node| matches!(node.kind, kind::STRING | kind::RAW_STRING);
    let strings = tables.nodes.iter().filter(is_string).map(place_of_string);
    let mut places = tables.names.iter().map(place_of_name).chain(strings);
    places.all(|(store, range)| stores[store].get(range).is_some()).then_some(stores)
}

fn place_of_name(name: &Name) -> Place {
    (TEXT, range(name.start, name.length))
}

fn place_of_string(node: &Node) -> Place {
    let store = if node.kind == kind::STRING { STRINGS } else { TEXT };
    (store, range(node.first, node.count))
}

fn range(start: u32, length: u32) -> Range<usize> {
    start as usize..(start + length) as usize
}
