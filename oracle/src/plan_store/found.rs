//! Words that no call gave, asked from outside: do the calls answer them as one and the same store?

use super::entry::Calls;
use super::layout::entries_of;
use super::model::{Entry, Store, CAPACITY, MOST_PACKS};

/// Packs beyond those that there can be are asked too.
pub const ASKED_PACKS: u32 = MOST_PACKS as u32 + 2;

/// The store that words behave like, or None if they are refused as no store. An error says what no
/// store does.
pub fn found(calls: &Calls, words: &[u32]) -> Result<Option<Store>, String> {
    let asked = Asked { calls, words };
    let mut emptied = words.to_vec();
    match (calls.empty)(&mut emptied) {
        0 => asked.store(&emptied).map(Some),
        35 if emptied != words => Err("a refusal changed the words".into()),
        35 => asked.no_store().map(|()| None),
        number => Err(format!("emptying answers {number}")),
    }
}

struct Asked<'a> {
    calls: &'a Calls,
    words: &'a [u32],
}

impl Asked<'_> {
    /// Keeps a plan of zeros on a copy of the words: its place, or None at 35.
    fn keep(&self, pack: u32, entries: usize) -> Result<Option<u32>, String> {
        let (mut copy, mut answer) = (self.words.to_vec(), [0; 4]);
        let plan = vec![0; entries * 5];
        match (self.calls.keep)(&mut copy, pack, &plan, entries as u32, &mut answer) {
            0 => Ok(Some(answer[1])),
            35 if copy != self.words => Err("a refusal changed the words".into()),
            35 => Ok(None),
            number => Err(format!("keeping answers {number}")),
        }
    }

    fn read(&self, pack: u32, place: u32) -> Entry {
        let mut entry = [1; 5];
        (self.calls.read)(self.words, pack, place, &mut entry);
        entry
    }

    fn no_store(&self) -> Result<(), String> {
        for pack in 0..=ASKED_PACKS {
            if self.keep(pack, 0)?.is_some() {
                return Err(format!("no store to empty, and pack {pack} keeps a plan"));
            }
            if [0, 1, 1535].iter().any(|place| self.read(pack, *place) != [0; 5]) {
                return Err(format!("no store to empty, and an entry of pack {pack} is read"));
            }
        }
        Ok(())
    }

    /// The entries of each pack: a plan of no entries goes into every pack, and its place is how many
    /// there are.
    fn entries(&self) -> Result<Vec<Vec<Entry>>, String> {
        let mut packs = Vec::new();
        for number in 1..=ASKED_PACKS {
            let Some(used) = self.keep(number, 0)? else {
                continue;
            };
            if number as usize != packs.len() + 1 || used as usize > CAPACITY {
                return Err(format!("pack {number} keeps {used} entries"));
            }
            if self.read(number, used) != [0; 5] {
                return Err(format!("pack {number} has an entry behind its last"));
            }
            let words: Vec<u32> = (0..used).flat_map(|place| self.read(number, place)).collect();
            packs.push(entries_of(&words));
        }
        Ok(packs)
    }

    /// How many entries more each pack can keep.
    fn rooms(&self, packs: usize) -> Result<Vec<usize>, String> {
        (1..=packs as u32).map(|pack| self.room(pack)).collect()
    }

    fn room(&self, pack: u32) -> Result<usize, String> {
        let (mut low, mut high) = (0, CAPACITY + 1);
        while low + 1 < high {
            let middle = (low + high) / 2;
            let kept = self.keep(pack, middle)?.is_some();
            *(if kept { &mut low } else { &mut high }) = middle;
        }
        Ok(low)
    }

    /// The shares by the rooms of the emptied store: each is a share and the common part, and the
    /// shares and the common part are all there is. Of one pack no call tells the share.
    fn store(&self, emptied: &[u32]) -> Result<Store, String> {
        let entries = self.entries()?;
        let alone = Asked { calls: self.calls, words: emptied };
        let left = alone.entries()?;
        if left.len() != entries.len() || left.iter().any(|own| !own.is_empty()) {
            return Err("emptying leaves entries, or other packs".into());
        }
        let rooms = alone.rooms(entries.len())?;
        let others = entries.len().saturating_sub(1);
        let beyond = rooms.iter().sum::<usize>().saturating_sub(CAPACITY);
        let common = beyond.checked_div(others).unwrap_or(CAPACITY);
        let shares = rooms.iter().map(|room| room.checked_sub(common).map(|share| share as u32));
        let shares: Option<Vec<u32>> = shares.collect();
        let shares = shares.ok_or("the rooms are of no shares")?;
        let packs: Vec<(u32, Vec<Entry>)> = shares.into_iter().zip(entries).collect();
        let store = Store::of(&packs).ok_or("more is kept than there is space for")?;
        let mut without = store.clone();
        without.empty();
        if told(&without) != rooms || told(&store) != self.rooms(packs.len())? {
            return Err("the packs have other rooms than their shares leave".into());
        }
        Ok(store)
    }
}

fn told(store: &Store) -> Vec<usize> {
    store.packs.iter().map(|pack| store.room(pack)).collect()
}
