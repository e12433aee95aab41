//! Calls that are right by the model, and wrong ones that are found out.

use super::comparison::Comparison;
use super::entry::{Calls, STORE_WORDS};
use super::layout::{entries_of, store_of, write};
use super::model::Store;

const RIGHT: Calls = Calls { set_up, keep, read, empty };

fn set_up(words: &mut [u32], shares: &[u32]) -> u32 {
    match Store::set_up(shares) {
        Some(store) if words.len() == STORE_WORDS => {
            write(words, &store);
            0
        }
        _ => 34,
    }
}

fn tell(answer: &mut [u32], told: &[u32]) -> u32 {
    answer.iter_mut().zip(told).for_each(|(word, number)| *word = *number);
    told[0]
}

fn kept(words: &mut [u32], pack: u32, plan: &[u32], entries: u32) -> Option<usize> {
    let mut store = store_of(words)?;
    let place = store.keep(pack, entries_of(plan).get(..entries as usize)?)?;
    write(words, &store);
    Some(place)
}

fn keep(words: &mut [u32], pack: u32, plan: &[u32], entries: u32, answer: &mut [u32]) -> u32 {
    match kept(words, pack, plan, entries) {
        Some(place) => tell(answer, &[0, place as u32, 0, 0]),
        None => tell(answer, &[35, 0, 0, 0]),
    }
}

fn read(words: &[u32], pack: u32, place: u32, entry: &mut [u32]) -> u32 {
    tell(entry, &store_of(words).map_or([0; 5], |store| store.read(pack, place)));
    0
}

fn empty(words: &mut [u32]) -> u32 {
    let Some(mut store) = store_of(words) else {
        return 35;
    };
    store.empty();
    write(words, &store);
    0
}

/// The histories of 300 in which calls are found out.
fn found_out(calls: Calls) -> u64 {
    let mut comparison = Comparison::new(calls);
    (0..300).for_each(|number| comparison.history(1, number));
    comparison.differing
}

#[test]
fn right_calls_agree_and_meet_every_class() {
    let mut comparison = Comparison::new(RIGHT);
    (0..600).for_each(|number| comparison.history(1, number));
    assert_eq!(comparison.differences, Vec::<String>::new());
    assert_eq!(comparison.tally.unmet(), Vec::<&str>::new());
}

#[test]
fn shares_that_wrap_around_are_found_out() {
    let wrong = |words: &mut [u32], shares: &[u32]| {
        let sum = shares.iter().fold(0, |sum: u32, share| sum.wrapping_add(*share));
        if sum == 0 && shares.len() == 2 {
            return 0;
        }
        set_up(words, shares)
    };
    assert!(found_out(Calls { set_up: wrong, ..RIGHT }) > 0);
}

#[test]
fn a_reserve_that_others_may_take_is_found_out() {
    let wrong = |words: &mut [u32], pack: u32, plan: &[u32], entries: u32, answer: &mut [u32]| {
        let Some(store) = store_of(words) else {
            return keep(words, pack, plan, entries, answer);
        };
        let kept: usize = store.packs.iter().map(|pack| pack.entries.len()).sum();
        if kept + entries as usize > 1536 {
            return tell(answer, &[35, 0, 0, 0]);
        }
        let common = Store::set_up(&vec![0; store.packs.len()]).expect("no shares");
        write(words, &common);
        keep(words, pack, plan, entries, answer)
    };
    assert!(found_out(Calls { keep: wrong, ..RIGHT }) > 100);
}

#[test]
fn a_refusal_that_writes_is_found_out() {
    let wrong = |words: &mut [u32], pack: u32, plan: &[u32], entries: u32, answer: &mut [u32]| {
        let number = keep(words, pack, plan, entries, answer);
        if number != 0 && words.len() == STORE_WORDS {
            words[STORE_WORDS - 1] ^= 1;
        }
        number
    };
    assert!(found_out(Calls { keep: wrong, ..RIGHT }) > 100);
}

#[test]
fn a_place_from_1_is_found_out() {
    let wrong = |words: &mut [u32], pack: u32, plan: &[u32], entries: u32, answer: &mut [u32]| {
        let number = keep(words, pack, plan, entries, answer);
        if let (0, Some(place)) = (number, answer.get_mut(1)) {
            *place += 1;
        }
        number
    };
    assert!(found_out(Calls { keep: wrong, ..RIGHT }) > 100);
}

#[test]
fn emptying_that_ends_shares_is_found_out() {
    let wrong = |words: &mut [u32]| {
        let number = empty(words);
        if number == 0 {
            let packs = words[0] as usize;
            words[1..=packs * 2].fill(0);
        }
        number
    };
    assert!(found_out(Calls { empty: wrong, ..RIGHT }) > 30);
}

#[test]
fn words_that_are_read_though_no_store_are_found_out() {
    let wrong = |words: &[u32], pack: u32, place: u32, entry: &mut [u32]| {
        if words.len() == STORE_WORDS && store_of(words).is_none() && pack == 1 {
            tell(entry, &words[17..22]);
            return 0;
        }
        read(words, pack, place, entry)
    };
    assert!(found_out(Calls { read: wrong, ..RIGHT }) > 30);
}

#[test]
fn a_set_up_that_writes_behind_the_head_is_found_out() {
    let wrong = |words: &mut [u32], shares: &[u32]| {
        let number = set_up(words, shares);
        if number == 0 {
            words[STORE_WORDS - 5..].fill(0);
        }
        number
    };
    assert!(found_out(Calls { set_up: wrong, ..RIGHT }) > 30);
}
