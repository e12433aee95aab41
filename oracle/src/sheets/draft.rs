//! A sheet's numbers before they are written, sound or not.

use std::io::Write;

#[derive(Clone, Debug, Default, PartialEq)]
pub struct Draft {
    pub operation: u32,
    pub scheduler: u32,
    pub scoping: u32,
    /// First, second, some-in key.
    pub roots: [u32; 3],
    /// Kind, start, end, first, count.
    pub nodes: Vec<[u32; 5]>,
    pub children: Vec<u32>,
    pub numbers: Vec<i128>,
    /// Start, length, marks.
    pub names: Vec<[u32; 3]>,
    pub strings: Vec<u8>,
    pub text: Vec<u8>,
}

pub const KIND: usize = 0;
pub const START: usize = 1;
pub const END: usize = 2;
pub const FIRST: usize = 3;
pub const COUNT: usize = 4;

impl Draft {
    pub fn bytes(&self) -> Vec<u8> {
        let mut sheet = Vec::new();
        let lengths = [
            self.nodes.len(),
            self.children.len(),
            self.numbers.len(),
            self.names.len(),
            self.strings.len(),
            self.text.len(),
        ];
        line(&mut sheet, &lengths.map(|length| length as u32));
        let [first, second, key] = self.roots;
        line(&mut sheet, &[self.operation, self.scheduler, self.scoping, first, second, key]);
        self.nodes.iter().for_each(|node| line(&mut sheet, node));
        self.children.iter().for_each(|&child| line(&mut sheet, &[child]));
        self.numbers.iter().for_each(|number| write(&mut sheet, format_args!("{number:20}\n")));
        self.names.iter().for_each(|name| line(&mut sheet, name));
        sheet.extend(&self.strings);
        sheet.extend(&self.text);
        sheet
    }

    /// The number of child entries that a node uses.
    pub fn width(node: &[u32; 5]) -> usize {
        match node[KIND] {
            7 | 8 => node[COUNT] as usize,
            9 => 2 * node[COUNT] as usize,
            _ => 0,
        }
    }
}

fn line(sheet: &mut Vec<u8>, columns: &[u32]) {
    columns.iter().for_each(|column| write(sheet, format_args!("{column:6}")));
    sheet.push(b'\n');
}

fn write(sheet: &mut Vec<u8>, text: std::fmt::Arguments) {
    sheet.write_fmt(text).expect("a vector takes all bytes");
}
