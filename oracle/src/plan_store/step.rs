//! The steps of a history, drawn for the store as it stands, so that its edges are met.

use super::entry::STORE_WORDS;
use super::model::{Store, CAPACITY};
use crate::generate::Random;

pub enum Call {
    SetUp {
        shares: Vec<u32>,
    },
    Keep {
        pack: u32,
        plan: Vec<u32>,
        entries: u32,
    },
    Read {
        pack: u32,
        place: u32,
    },
    Empty,
    /// Not a call: words of the store that somebody else writes.
    Damage(Vec<(usize, u32)>),
}

pub struct Step {
    pub call: Call,
    /// How many words are lent as the store.
    pub length: usize,
    /// How many are lent for the answer or the entry.
    pub told: usize,
}

/// Words lent as the store, at most.
pub const LONGEST: usize = STORE_WORDS + 3;

pub fn step(random: &mut Random, store: Option<&Store>) -> Step {
    let keeps = store.is_some_and(|store| !store.packs.is_empty());
    let weights = if keeps { [4, 50, 30, 4, 3] } else { [50, 10, 10, 10, 3] };
    let none = Store { packs: Vec::new() };
    let store = store.unwrap_or(&none);
    let call = match random.weighted(&weights) {
        0 => Call::SetUp { shares: shares(random) },
        1 => keep(random, store),
        2 => read(random, store),
        3 => Call::Empty,
        _ => damage(random, store),
    };
    let others = [0, 1, STORE_WORDS - 1, STORE_WORDS + 1, LONGEST];
    let length = if random.chance(4) { *random.pick(&others) } else { STORE_WORDS };
    let exact = if matches!(call, Call::Read { .. }) { 5 } else { 4 };
    let told = if random.chance(20) { random.below(8) } else { exact };
    Step { call, length, told }
}

/// Up to nine packs; shares of all there is, one more, far more, or few.
pub fn shares(random: &mut Random) -> Vec<u32> {
    let packs = *random.pick(&[0, 1, 2, 2, 3, 4, 8, 8, 9]);
    let mut shares: Vec<u32> = vec![0; packs];
    let reserved = match random.below(6) {
        0 => CAPACITY,
        1 => CAPACITY + 1,
        2 => CAPACITY - random.below(20),
        3 => 0,
        _ => random.below(CAPACITY),
    };
    for part in (0..reserved).step_by(16) {
        if let Some(own) = shares.len().checked_sub(1) {
            shares[random.below(own + 1)] += (reserved - part).min(16) as u32;
        }
    }
    if random.chance(2) && packs > 1 {
        shares[0] = u32::MAX;
        shares[1] = 1;
    }
    shares
}

/// Mostly a pack that there is.
fn pack(random: &mut Random, store: &Store) -> u32 {
    match random.below(20) {
        0 => 0,
        1 => store.packs.len() as u32 + 1,
        2 => *random.pick(&[9, 10, u32::MAX]),
        _ => 1 + random.below(store.packs.len().max(1)) as u32,
    }
}

fn keep(random: &mut Random, store: &Store) -> Call {
    let pack = pack(random, store);
    let free = store.pack(pack).map(|own| (own.free_reserve(), store.room(own)));
    let (reserve, room) = free.unwrap_or((3, 3));
    let entries = match random.below(12) {
        0 => room,
        1 => room + 1,
        2 => reserve,
        3 => reserve + 1,
        4 => 0,
        5 => random.below(room + 1),
        _ => random.below(12),
    };
    let words = match random.below(12) {
        0 => (entries * 5).saturating_sub(1),
        1 => (entries * 5).saturating_sub(1 + random.below(9)),
        2 => entries * 5 + random.below(9),
        _ => entries * 5,
    };
    let first = random.below(1 << 32) as u32;
    let plan = (0..words as u32).map(|word| first.wrapping_add(word)).collect();
    let far = *random.pick(&[u32::MAX, 1 << 31, 0x3333_3334]);
    let entries = if random.chance(1) { far } else { entries as u32 };
    Call::Keep { pack, plan, entries }
}

fn read(random: &mut Random, store: &Store) -> Call {
    let pack = pack(random, store);
    let used = store.pack(pack).map_or(0, |own| own.entries.len());
    let place = match random.below(8) {
        0 => used,
        1 => *random.pick(&[used + 1, CAPACITY, u32::MAX as usize]),
        2 => used.saturating_sub(1),
        _ => random.below(used.max(1)),
    };
    Call::Read { pack, place: place as u32 }
}

/// A few words of the head, of the entries or behind them.
fn damage(random: &mut Random, store: &Store) -> Call {
    let word = |random: &mut Random| match random.below(4) {
        0 => random.below(12) as u32,
        1 => *random.pick(&[1535, 1536, 1537, u32::MAX]),
        2 => random.below(CAPACITY) as u32,
        _ => random.below(1 << 32) as u32,
    };
    let head = 1 + store.packs.len() * 2;
    let place = |random: &mut Random| match random.below(4) {
        0 => 0,
        1 => random.below(STORE_WORDS),
        _ => random.below(head),
    };
    let words = (0..1 + random.below(3)).map(|_| (place(random), word(random)));
    Call::Damage(words.collect())
}
