//! The tables as a C host lends them, word by word.

use crate::answer::tables::{Name, Node, Number, Tables};
use crate::sheets::Draft;

pub const NODE_WORDS: usize = 5;
pub const NAME_WORDS: usize = 2;

#[derive(Clone, Debug, PartialEq)]
pub struct Words {
    pub nodes: Vec<u32>,
    pub children: Vec<u32>,
    /// 1 for below zero or 0, then the size.
    pub numbers: Vec<u64>,
    /// All places of the name table.
    pub names: Vec<u32>,
    pub strings: Vec<u8>,
    pub text: Vec<u8>,
}

impl Words {
    /// The tables of a draft, with words behind its names.
    pub fn of(draft: &Draft, free: &[u32]) -> Self {
        let sign_and_size = |&number: &i128| [u64::from(number < 0), number.unsigned_abs() as u64];
        let mut names: Vec<u32> = draft.names.iter().flat_map(|name| [name[0], name[1]]).collect();
        names.extend(free);
        Self {
            nodes: draft.nodes.concat(),
            children: draft.children.clone(),
            numbers: draft.numbers.iter().flat_map(sign_and_size).collect(),
            names,
            strings: draft.strings.clone(),
            text: draft.text.clone(),
        }
    }

    /// Gives a draft of as many names these tables.
    pub fn put_back(self, draft: &mut Draft) {
        let number = |words: &[u64]| i128::from(words[1]) * if words[0] == 0 { 1 } else { -1 };
        draft.numbers = self.numbers.chunks(2).map(number).collect();
        let node = |words: &[u32]| words.try_into().expect("five words a node");
        draft.nodes = self.nodes.chunks(NODE_WORDS).map(node).collect();
        for (name, words) in draft.names.iter_mut().zip(self.names.chunks(NAME_WORDS)) {
            name[..2].copy_from_slice(words);
        }
        (draft.children, draft.strings, draft.text) = (self.children, self.strings, self.text);
    }

    /// As the table check reads them, with so many names; whole records alone.
    pub fn tables(&self, names: usize) -> Tables<'_> {
        let node =
            |w: &[u32]| Node { kind: w[0], start: w[1], end: w[2], first: w[3], count: w[4] };
        let number = |w: &[u64]| Number { below_zero: w[0] == 1, size: w[1] };
        let name = |w: &[u32]| Name { start: w[0], length: w[1], marks: 0 };
        Tables {
            nodes: self.nodes.chunks_exact(NODE_WORDS).map(node).collect(),
            children: self.children.clone(),
            numbers: self.numbers.chunks_exact(2).map(number).collect(),
            names: self.names.chunks_exact(NAME_WORDS).take(names).map(name).collect(),
            strings: &self.strings,
            text: &self.text,
        }
    }
}
