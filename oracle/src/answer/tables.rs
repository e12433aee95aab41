//! The tables of a sheet, as read.

#[derive(Debug)]
pub struct Tables<'a> {
    /// Node `n` stands at place `n - 1`.
    pub nodes: Vec<Node>,
    pub children: Vec<u32>,
    pub numbers: Vec<Number>,
    pub names: Vec<Name>,
    pub strings: &'a [u8],
    pub text: &'a [u8],
}

#[derive(Clone, Copy, Debug)]
pub struct Node {
    pub kind: u32,
    pub start: u32,
    pub end: u32,
    pub first: u32,
    pub count: u32,
}

/// As a column says it: minus zero, and numbers that the table rules don't allow, too.
#[derive(Clone, Copy, Debug, PartialEq)]
pub struct Number {
    pub below_zero: bool,
    pub size: u64,
}

#[derive(Debug)]
pub struct Name {
    pub start: u32,
    pub length: u32,
    pub marks: u32,
}

pub mod kind {
    pub const STRING: u32 = 1;
    pub const RAW_STRING: u32 = 2;
    pub const NUMBER: u32 = 3;
    pub const BOOL: u32 = 4;
    pub const NULL: u32 = 5;
    pub const NAME: u32 = 6;
    pub const ARRAY: u32 = 7;
    pub const SET: u32 = 8;
    pub const OBJECT: u32 = 9;
    pub const OTHER: u32 = 10;
}

impl Node {
    /// The number of child entries that the node uses.
    pub fn width(&self) -> u32 {
        match self.kind {
            kind::ARRAY | kind::SET => self.count,
            kind::OBJECT => self.count.saturating_mul(2),
            _ => 0,
        }
    }
}

impl Tables<'_> {
    /// The node's children; the range of a node that has some lies within the child list.
    pub fn children_of(&self, node: &Node) -> &[u32] {
        match node.width() as usize {
            0 => &[],
            width => &self.children[node.first as usize..][..width],
        }
    }

    /// The bytes of a name that lies within the text.
    pub fn name_bytes(&self, name: &Name) -> &[u8] {
        &self.text[name.start as usize..][..name.length as usize]
    }
}
