//! The seeded generator: tables of sheets, at a limit, deep, with many names; then one or two words
//! changed, added or taken away, and marks.

use crate::generate::{draft, edges, Random};
use crate::parties::words::{Words, NAME_WORDS, NODE_WORDS};

#[derive(Clone, Debug)]
pub struct Case {
    pub words: Words,
    pub marks: Vec<u8>,
}

/// Words that are lent for an answer of four.
pub const MOST_ANSWER: usize = 5;

/// The case of a number, and the words lent for its answer; a seed and a number give the same case
/// everywhere.
pub fn case(seed: u64, number: u64) -> (Case, usize) {
    let random = &mut Random::of_case(seed, number);
    let mut words = match random.weighted(&[80, 10, 10]) {
        0 => Words::of(&draft(!seed, number), &[]),
        1 => Words::of(&edges::deep(random), &[]),
        _ => Words::of(&edges::at_a_limit(random), &[]),
    };
    for _ in 0..random.weighted(&[10, 60, 30]) {
        change(random, &mut words);
    }
    let marks = marks(random, words.names.len() / NAME_WORDS);
    (Case { words, marks }, random.below(MOST_ANSWER + 1))
}

fn change(random: &mut Random, words: &mut Words) {
    match random.weighted(&[50, 20, 15, 5, 5, 5]) {
        0 => change_node(random, &mut words.nodes, words.text.len()),
        1 => change_word(random, &mut words.children),
        2 => change_word(random, &mut words.names),
        3 => change_number(random, &mut words.numbers),
        4 => change_length(random, words),
        _ => repeat_name(random, words),
    }
}

/// A word of a node: near what it was, another node's, or one of its own kind's bounds.
fn change_node(random: &mut Random, nodes: &mut [u32], text: usize) {
    if nodes.len() < NODE_WORDS {
        return;
    }
    let count = nodes.len() / NODE_WORDS;
    let [node, other] = [(); 2].map(|()| NODE_WORDS * random.below(count));
    let word = random.below(NODE_WORDS);
    let here = nodes[node + word];
    let end = text as u32;
    let near = [
        here.wrapping_add(1),
        here.wrapping_sub(1),
        nodes[other + word],
        0,
        1,
        2,
        11,
        end,
        end + 1,
        999_999,
        u32::MAX,
    ];
    nodes[node + word] = *random.pick(&near);
}

fn change_word(random: &mut Random, words: &mut Vec<u32>) {
    if words.is_empty() {
        return words.push(random.below(3) as u32);
    }
    let [place, other] = [(); 2].map(|()| random.below(words.len()));
    let here = words[place];
    let near = [here.wrapping_add(1), here.wrapping_sub(1), words[other], 0, 1, 256, 513, u32::MAX];
    words[place] = *random.pick(&near);
}

fn change_number(random: &mut Random, numbers: &mut Vec<u64>) {
    if numbers.len() < 2 {
        numbers.extend([0, 0]);
    }
    let place = 2 * random.below(numbers.len() / 2);
    numbers[place] = *random.pick(&[0, 1, 2, u64::MAX]);
    numbers[place + 1] = *random.pick(&[0, 1, 1 << 63, (1 << 63) + 1, u64::MAX]);
}

/// A list a word or a byte longer or shorter, or about its limit.
fn change_length(random: &mut Random, words: &mut Words) {
    let near = |random: &mut Random, length: usize, most: usize| {
        *random.pick(&[length + 1, length.saturating_sub(1), most, most + 1])
    };
    match random.below(6) {
        0 => words.nodes.resize(near(random, words.nodes.len(), 512 * NODE_WORDS + 4), 0),
        1 => words.children.resize(near(random, words.children.len(), 512), 1),
        2 => words.numbers.resize(near(random, words.numbers.len(), 513), 0),
        3 => words.names.resize(near(random, words.names.len(), 128 * NAME_WORDS + 1), 1),
        4 => words.strings.resize(near(random, words.strings.len(), 8_192), b'a'),
        _ => words.text.resize(near(random, words.text.len(), 16_384), b'a'),
    }
}

fn repeat_name(random: &mut Random, words: &mut Words) {
    if words.names.len() >= NAME_WORDS {
        let place = NAME_WORDS * random.below(words.names.len() / NAME_WORDS);
        words.names.extend_from_within(place..place + NAME_WORDS);
    }
}

/// Mostly as many as names, all at most 31.
fn marks(random: &mut Random, names: usize) -> Vec<u8> {
    let count = match random.weighted(&[80, 10, 10]) {
        0 => names,
        1 => 0,
        _ => *random.pick(&[1, 127, 128, 129, 200]),
    };
    let mut marks: Vec<u8> = (0..count).map(|_| random.below(32) as u8).collect();
    if !marks.is_empty() && random.chance(10) {
        let place = random.below(marks.len());
        marks[place] = *random.pick(&[31, 32, 33, 255]);
    }
    marks
}
