//! Histories of calls, each held against the text and the layout, and counted.

use super::entry::{Calls, STORE_WORDS};
use super::expected::{expected, Expected, Lent};
use super::found::{found, ASKED_PACKS};
use super::layout;
use super::model::Store;
use super::step::{step, Call, Step, LONGEST};
use super::tally::{Class, Tally};
use crate::generate::Random;

/// Differences beyond these are counted alone.
const KEPT: usize = 20;

/// Stands in words that a call has not written.
const UNWRITTEN: u32 = 0xdead_beef;

pub struct Comparison {
    calls: Calls,
    pub tally: Tally,
    pub histories: u64,
    pub differing: u64,
    pub differences: Vec<String>,
}

impl Comparison {
    pub fn new(calls: Calls) -> Self {
        let tally = Tally::default();
        Self { calls, tally, histories: 0, differing: 0, differences: Vec::new() }
    }

    /// A history from words that may say anything, to its first difference.
    pub fn history(&mut self, seed: u64, number: u64) {
        let mut random = Random::of_case(seed, number);
        if let Err(difference) = self.run(&mut random) {
            self.differing += 1;
            if self.differences.len() < KEPT {
                self.differences.push(format!("history {number} differs: {difference}"));
            }
        }
        self.histories += 1;
    }

    fn run(&mut self, random: &mut Random) -> Result<(), String> {
        let word = *random.pick(&[0, 7, 9, UNWRITTEN]);
        let mut history = History { calls: self.calls, words: vec![word; LONGEST], store: None };
        history.store = history.look()?;
        for number in 1..=5 + random.below(40) {
            let step = step(random, history.store.as_ref());
            let class = history.step(&step).map_err(|why| format!("step {number}, {why}"))?;
            self.tally.add(class);
        }
        history.read_all()
    }
}

struct History {
    calls: Calls,
    words: Vec<u32>,
    /// The store that the words are, if they are one.
    store: Option<Store>,
}

impl History {
    fn step(&mut self, step: &Step) -> Result<Class, String> {
        if let Call::Damage(words) = &step.call {
            words.iter().for_each(|(place, word)| self.words[*place] = *word);
            return self.damaged();
        }
        let lent = match &self.store {
            _ if step.length != STORE_WORDS => Lent::OtherLength,
            None => Lent::NoStore,
            Some(store) => Lent::Store(store),
        };
        let wanted = expected(lent, step);
        let mut words = self.words.clone();
        let (result, told) = self.called(step, &mut words);
        let class = wanted.class;
        if result != wanted.result || told != told_words(step, &wanted) {
            return Err(format!("{class:?}: {result}, {told:?}, not {:?}", wanted.told));
        }
        if let Some(after) = wanted.after {
            layout::write(&mut self.words, &after);
            self.store = Some(after);
        }
        if words != self.words {
            return Err(format!("{class:?}: other words of the store"));
        }
        Ok(class)
    }

    /// The result of a call, and the words lent for the answer or the entry, with one behind them.
    fn called(&self, step: &Step, words: &mut [u32]) -> (u32, Vec<u32>) {
        let (store, calls) = (&mut words[..step.length], &self.calls);
        let mut told = vec![UNWRITTEN; step.told + 1];
        let lent = &mut told[..step.told];
        let result = match &step.call {
            Call::SetUp { shares } => (calls.set_up)(store, shares),
            Call::Keep { pack, plan, entries } => (calls.keep)(store, *pack, plan, *entries, lent),
            Call::Read { pack, place } => (calls.read)(store, *pack, *place, lent),
            Call::Empty => (calls.empty)(store),
            Call::Damage(_) => unreachable!("no call"),
        };
        (result, told)
    }

    /// The store that the words are now: as the calls answer, and as the layout says.
    fn look(&self) -> Result<Option<Store>, String> {
        let words = &self.words[..STORE_WORDS];
        let said = layout::store_of(words);
        if !alike(found(&self.calls, words)?.as_ref(), said.as_ref()) {
            return Err("the calls answer another store than the layout says".into());
        }
        Ok(said)
    }

    fn damaged(&mut self) -> Result<Class, String> {
        let now = self.look().map_err(|why| format!("damaged: {why}"))?;
        let class = match &now {
            None => Class::NoStore,
            Some(_) if now == self.store => Class::SameStore,
            Some(store) if store.packs.len() == 1 => Class::OnePack,
            Some(_) => Class::OtherStore,
        };
        self.store = now;
        Ok(class)
    }

    /// Every entry of the store, and a place behind each pack's last.
    fn read_all(&self) -> Result<(), String> {
        for pack in 0..=ASKED_PACKS {
            let own = self.store.as_ref().and_then(|store| store.pack(pack));
            for place in 0..=own.map_or(0, |own| own.entries.len()) as u32 {
                let mut entry = [UNWRITTEN; 5];
                (self.calls.read)(&self.words[..STORE_WORDS], pack, place, &mut entry);
                let wanted = self.store.as_ref().map_or([0; 5], |store| store.read(pack, place));
                if entry != wanted {
                    return Err(format!("pack {pack}, place {place}: {entry:?}, not {wanted:?}"));
                }
            }
        }
        Ok(())
    }
}

/// As many words as there is space for, and what is not written.
fn told_words(step: &Step, wanted: &Expected) -> Vec<u32> {
    let mut words = vec![UNWRITTEN; step.told + 1];
    if matches!(step.call, Call::Keep { .. } | Call::Read { .. }) {
        words[..step.told].iter_mut().zip(&wanted.told).for_each(|(own, word)| *own = *word);
    }
    words
}

/// Whether the calls can't tell two stores apart: the share of a store's only pack they don't tell.
fn alike(one: Option<&Store>, other: Option<&Store>) -> bool {
    let entries = |store: &Store| -> Vec<_> {
        let lists = store.packs.iter().map(|pack| pack.entries.iter().map(|(entry, _)| *entry));
        lists.map(Iterator::collect::<Vec<_>>).collect()
    };
    match (one, other) {
        (Some(one), Some(other)) if one.packs.len() == 1 => entries(one) == entries(other),
        _ => one == other,
    }
}
