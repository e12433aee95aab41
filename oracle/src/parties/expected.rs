//! What adding a name has to answer, and the name table afterwards. Written from document 02, slip
//! 8, and document 01, and not from the crates; the table check is the one of the sheets.

use super::adding::Addition;
use super::words::{NAME_WORDS, NODE_WORDS};
use crate::answer::check::check;
use std::ops::RangeInclusive;

/// Why an addition is answered as it is.
#[derive(Clone, Copy, Debug, PartialEq, Eq, PartialOrd, Ord)]
pub enum Why {
    Existing,
    Added,
    /// More than 128 names in use; another limit.
    NamesOverLimit,
    OverLimit,
    /// The name table is not whole pairs; has fewer places than names in use; another rule.
    OddNames,
    BeyondPlaces,
    BreaksRules,
    TooDeep,
    EqualNames,
    /// No byte; more than 255; a range that ends past the text.
    NoByte,
    TooLong,
    PastText,
    /// In the lent table; for a 129th name.
    NoPlace,
    NoNumber,
}

use Why::*;

pub const ALL: [Why; 14] = [
    Existing,
    Added,
    NamesOverLimit,
    OverLimit,
    OddNames,
    BeyondPlaces,
    BreaksRules,
    TooDeep,
    EqualNames,
    NoByte,
    TooLong,
    PastText,
    NoPlace,
    NoNumber,
];

pub struct Expected {
    pub why: Why,
    pub answer: [u32; 4],
    pub names: Vec<u32>,
}

const MOST_NAMES: u32 = 128;
const NAME_BYTES: RangeInclusive<u32> = 1..=255;

pub fn expected(addition: &Addition) -> Expected {
    let mut names = addition.words.names.clone();
    let (why, number) = match refusal(addition) {
        Some(why) => (why, 0),
        None => found_or_added(addition),
    };
    let answer = match why {
        Existing => [0, number, 0, 0],
        Added => [0, number, 1, 0],
        NamesOverLimit | OverLimit => [1, 0, 0, 0],
        OddNames | BeyondPlaces | BreaksRules | NoByte | TooLong | PastText => [2, 0, 0, 0],
        TooDeep => [3, 0, 0, 0],
        EqualNames => [4, 0, 0, 0],
        NoPlace | NoNumber => [33, 0, 0, 0],
    };
    if why == Added {
        let place = addition.used as usize * NAME_WORDS;
        names[place..place + NAME_WORDS].copy_from_slice(&[addition.start, addition.length]);
    }
    Expected { why, answer, names }
}

/// The table check, then what the table rules say of the name.
fn refusal(addition: &Addition) -> Option<Why> {
    limits(addition).or_else(|| rules(addition)).or_else(|| name(addition))
}

fn limits(addition: &Addition) -> Option<Why> {
    let words = &addition.words;
    let within = words.nodes.len() / NODE_WORDS <= 512
        && words.children.len() <= 512
        && words.numbers.len() / 2 <= 256
        && words.strings.len() <= 8_192
        && words.text.len() <= 16_384;
    match (within, addition.used > MOST_NAMES) {
        (false, _) => Some(OverLimit),
        (true, true) => Some(NamesOverLimit),
        (true, false) => None,
    }
}

fn rules(addition: &Addition) -> Option<Why> {
    let words = &addition.words;
    let used = addition.used as usize;
    if !is_whole(&words.names, NAME_WORDS) {
        return Some(OddNames);
    }
    if used > words.names.len() / NAME_WORDS {
        return Some(BeyondPlaces);
    }
    if !is_whole(&words.nodes, NODE_WORDS) || !is_whole(&words.numbers, 2) {
        return Some(BreaksRules);
    }
    check(&words.tables(used)).err().map(|refusal| match refusal.number {
        2 => BreaksRules,
        3 => TooDeep,
        _ => EqualNames,
    })
}

fn is_whole<T>(words: &[T], record: usize) -> bool {
    words.chunks_exact(record).remainder().is_empty()
}

fn name(addition: &Addition) -> Option<Why> {
    if addition.length < *NAME_BYTES.start() {
        Some(NoByte)
    } else if addition.length > *NAME_BYTES.end() {
        Some(TooLong)
    } else if range(addition).is_none() {
        Some(PastText)
    } else {
        None
    }
}

fn range(addition: &Addition) -> Option<&[u8]> {
    let start = addition.start as usize;
    addition.words.text.get(start..start + addition.length as usize)
}

fn found_or_added(addition: &Addition) -> (Why, u32) {
    let words = &addition.words;
    let tables = words.tables(addition.used as usize);
    let bytes = range(addition).expect("the name is allowed");
    let equal = tables.names.iter().position(|name| tables.name_bytes(name) == bytes);
    match equal {
        Some(place) => (Existing, place as u32 + 1),
        None if addition.used as usize == words.names.len() / NAME_WORDS => (NoPlace, 0),
        None if addition.used == MOST_NAMES => (NoNumber, 0),
        None => (Added, addition.used + 1),
    }
}
