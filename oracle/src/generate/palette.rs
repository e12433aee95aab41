//! The names and literals that a generated rule is made of: few, so that they meet.

use super::random::Random;
use crate::sheets::Tree;

const NAMES: [&str; 12] =
    ["x", "y", "z", "w", "input", "data", "xs", "_x", "__", "é", "名前", "a_long_name_of_a_panel"];
const TEXTS: [&str; 13] =
    ["a", "b", "c", "1", "-1", "true", "null", "", "ab", "é", "x", "Z", "18446744073709551615"];
const NUMBERS: [i128; 12] = [
    1,
    2,
    0,
    -1,
    10,
    9,
    (1 << 63) - 1,
    1 << 63,
    (1 << 64) - 1,
    (1 << 64) - 2,
    -(1 << 63),
    1 - (1 << 63),
];
const KNOWN_MARKS: [u32; 5] = [1, 3, 16, 17, 19];
const UNBOUND_MARKS: [u32; 6] = [0, 0, 0, 2, 4, 5];

pub struct Palette {
    /// Names with their marks, `_` aside.
    pub scope: Vec<(String, u32)>,
}

impl Palette {
    pub fn new(random: &mut Random) -> Self {
        let mut names = NAMES;
        random.shuffle(&mut names[..4]);
        if random.chance(40) {
            random.shuffle(&mut names);
        }
        let count = 1 + random.below(5);
        let scope = names[..count].iter().map(|name| (name.to_string(), marks(random))).collect();
        Self { scope }
    }

    pub fn name(&self, random: &mut Random) -> Tree {
        Tree::name(&random.pick(&self.scope).0)
    }

    pub fn literal(random: &mut Random) -> Tree {
        match random.weighted(&[35, 35, 10, 10, 10]) {
            0 => Tree::Number(*random.pick(&NUMBERS)),
            1 => Tree::String(text(random, &TEXTS)),
            2 => Tree::RawString(text(random, &TEXTS)),
            3 => Tree::Bool(random.chance(50)),
            _ => Tree::Null,
        }
    }

    /// A literal key from the few that often meet.
    pub fn literal_key(random: &mut Random) -> Tree {
        match random.weighted(&[55, 10, 15, 5, 15]) {
            0 => Tree::String(text(random, &TEXTS[..4])),
            1 => Tree::RawString(text(random, &TEXTS[..4])),
            2 => Tree::Number(*random.pick(&NUMBERS[..3])),
            3 => Tree::Number(*random.pick(&NUMBERS[6..])),
            _ => Self::literal(random),
        }
    }
}

fn text(random: &mut Random, texts: &[&str]) -> String {
    random.pick(texts).to_string()
}

fn marks(random: &mut Random) -> u32 {
    match random.weighted(&[50, 30, 20]) {
        0 => *random.pick(&UNBOUND_MARKS),
        1 => *random.pick(&KNOWN_MARKS),
        _ => random.below(32) as u32,
    }
}
