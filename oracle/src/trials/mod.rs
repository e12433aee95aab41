//! The rules on trial of document 01, and its other sentences: sheets, and answers written by hand
//! from it.

mod layout;
mod limits;
mod rules;
mod tables;

use crate::sheets::Draft;

pub struct Trial {
    pub name: String,
    pub sheet: Vec<u8>,
    pub expected: String,
}

pub fn trials() -> Vec<Trial> {
    let trials = rules::trials().chain(limits::trials());
    trials.chain(tables::trials()).chain(layout::trials()).collect()
}

fn trial(name: &str, draft: &Draft, expected: &str) -> Trial {
    Trial { name: name.into(), sheet: draft.bytes(), expected: listing(expected) }
}

/// Numbers parted by blanks, lines by commas, in columns of six.
fn listing(lines: &str) -> String {
    let column = |number: &str| format!("{number:>6}");
    let line = |line: &str| line.split_whitespace().map(column).collect::<String>() + "\n";
    lines.split(", ").map(line).collect()
}
