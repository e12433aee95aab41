//! The seeded generator of additions: tables of sheets, name tables about the limit, tables at other
//! limits; free places, odd numbers of words, ranges of the text that are no names.

use super::adding::{Addition, MOST_ANSWER};
use super::words::{Words, NAME_WORDS};
use crate::generate::{draft, edges, Random};
use crate::sheets::draft::{END, START};

/// The addition of a number, and the words lent for its answer; a seed and a number give the same
/// addition everywhere.
pub fn addition(seed: u64, number: u64) -> (Addition, usize) {
    let random = &mut Random::of_case(seed, number);
    let mut words = match random.weighted(&[60, 30, 5, 5]) {
        0 => Words::of(&draft(!seed, number), &[]),
        1 => crowded(random),
        2 => Words::of(&edges::deep(random), &[]),
        _ => Words::of(&edges::at_a_limit(random), &[]),
    };
    if random.chance(10) {
        let count = 250 + random.below(10);
        words.text.extend((0..count).map(|byte| byte as u8));
    }
    let used = used(random, (words.names.len() / NAME_WORDS) as u32);
    places(random, &mut words);
    let (start, length) = range(random, &words);
    (Addition { words, used, start, length }, random.below(MOST_ANSWER + 1))
}

/// 120 to 131 names of two bytes, at times two of them equal, and no node.
fn crowded(random: &mut Random) -> Words {
    let text: Vec<u8> =
        (0..140).flat_map(|code: u8| [b'a' + code / 12, b'a' + code % 12]).collect();
    let count = 120 + random.below(12) as u32;
    let mut names: Vec<u32> = (0..count).flat_map(|name| [2 * name, 2]).collect();
    if random.chance(5) {
        let place = NAME_WORDS * random.below(count as usize);
        names[place] = 2 * random.below(count as usize) as u32;
    }
    let (nodes, children, numbers, strings) = Default::default();
    Words { nodes, children, numbers, names, strings, text }
}

/// Mostly all names of the tables.
fn used(random: &mut Random, names: u32) -> u32 {
    match random.weighted(&[85, 5, 5, 5]) {
        0 => names,
        1 => names.saturating_sub(1 + random.below(2) as u32),
        2 => names + 1 + random.below(2) as u32,
        _ => *random.pick(&[0, 127, 128, 129, 130, u32::MAX / 2 + 1, u32::MAX]),
    }
}

/// Free places with any words, or words that are no place, behind the names.
fn places(random: &mut Random, words: &mut Words) {
    let free = NAME_WORDS * random.weighted(&[30, 30, 20, 20]);
    let any = [0, 1, 2, 77, 999_999, u32::MAX];
    words.names.extend((0..free).map(|_| *random.pick(&any)));
    match random.weighted(&[90, 6, 4]) {
        0 => {}
        1 => words.names.push(*random.pick(&any)),
        _ => drop(words.names.pop()),
    }
}

/// Where a name or a node of the tables stands, or any other range, within the text or past it.
fn range(random: &mut Random, words: &Words) -> (u32, u32) {
    let text = words.text.len() as u32;
    let start = random.below(text as usize + 1) as u32;
    match random.weighted(&[15, 20, 45, 5, 5, 5, 5]) {
        0 if words.names.len() >= NAME_WORDS => {
            let place = NAME_WORDS * random.below(words.names.len() / NAME_WORDS);
            (words.names[place], words.names[place + 1])
        }
        1 if !words.nodes.is_empty() => {
            let node = &words.nodes[5 * random.below(words.nodes.len() / 5)..];
            (node[START], node[END].wrapping_sub(node[START]))
        }
        3 => (start, 0),
        4 => (start / 8, 254 + random.below(4) as u32),
        5 => (start, (text - start).saturating_add(random.below(3) as u32)),
        6 => {
            let any = [0, 1, text, u32::MAX - 1, u32::MAX];
            (*random.pick(&any), *random.pick(&any))
        }
        _ => (start, 1 + random.below(4) as u32),
    }
}
