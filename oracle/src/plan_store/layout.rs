//! The documented layout of a store's words: the number of packs; each pack's share and how many
//! entries it keeps; then the entries, pack by pack. Words behind them are no part of the store.

use super::entry::STORE_WORDS;
use super::model::{Entry, Store, CAPACITY, MOST_PACKS};

/// The store that words say, if calls can give it.
pub fn store_of(words: &[u32]) -> Option<Store> {
    if words.len() != STORE_WORDS || words[0] as usize > MOST_PACKS {
        return None;
    }
    let (head, mut rows) = words[1..].split_at(words[0] as usize * 2);
    let kept: u64 = head.chunks(2).map(|pack| u64::from(pack[1])).sum();
    if kept > CAPACITY as u64 {
        return None;
    }
    let mut packs = Vec::new();
    for pack in head.chunks(2) {
        let (own, rest) = rows.split_at(pack[1] as usize * 5);
        packs.push((pack[0], entries_of(own)));
        rows = rest;
    }
    Store::of(&packs)
}

/// Whole fives of words.
pub fn entries_of(words: &[u32]) -> Vec<Entry> {
    words.chunks_exact(5).map(|five| five.try_into().expect("five words")).collect()
}

/// A store written over words.
pub fn write(words: &mut [u32], store: &Store) {
    let mut written = vec![store.packs.len() as u32];
    for pack in &store.packs {
        written.extend([pack.share as u32, pack.entries.len() as u32]);
    }
    let entries = store.packs.iter().flat_map(|pack| &pack.entries);
    written.extend(entries.flat_map(|(entry, _)| *entry));
    words[..written.len()].copy_from_slice(&written);
}
