//! The store as document 02 says it: packs, each with its entries, and each entry in its pack's
//! reserve or in the common part.

pub const CAPACITY: usize = 1536;
pub const MOST_PACKS: usize = 8;

pub type Entry = [u32; 5];

#[derive(Clone, Copy, Debug, PartialEq, Eq)]
pub enum Part {
    Reserve,
    Common,
}

#[derive(Clone, Debug, PartialEq, Eq)]
pub struct Pack {
    pub share: usize,
    pub entries: Vec<(Entry, Part)>,
}

#[derive(Clone, Debug, PartialEq, Eq)]
pub struct Store {
    pub packs: Vec<Pack>,
}

impl Pack {
    fn in_part(&self, part: Part) -> usize {
        self.entries.iter().filter(|(_, own)| *own == part).count()
    }

    pub fn free_reserve(&self) -> usize {
        self.share - self.in_part(Part::Reserve)
    }
}

impl Store {
    /// None is 34: shares above 1,536 in all, or more than eight packs.
    pub fn set_up(shares: &[u32]) -> Option<Self> {
        let reserved: u64 = shares.iter().map(|share| u64::from(*share)).sum();
        if shares.len() > MOST_PACKS || reserved > CAPACITY as u64 {
            return None;
        }
        let pack = |share: &u32| Pack { share: *share as usize, entries: Vec::new() };
        Some(Self { packs: shares.iter().map(pack).collect() })
    }

    /// The store that keeping these entries of each pack gives, if there is one.
    pub fn of(packs: &[(u32, Vec<Entry>)]) -> Option<Self> {
        let shares: Vec<u32> = packs.iter().map(|(share, _)| *share).collect();
        let mut store = Self::set_up(&shares)?;
        for (number, (_, entries)) in (1..).zip(packs) {
            store.keep(number, entries)?;
        }
        Some(store)
    }

    /// What no share covers, without the entries that stand there.
    pub fn free_common(&self) -> usize {
        let covered: usize = self.packs.iter().map(|pack| pack.share).sum();
        let taken: usize = self.packs.iter().map(|pack| pack.in_part(Part::Common)).sum();
        CAPACITY - covered - taken
    }

    /// Packs are numbered from 1.
    pub fn pack(&self, number: u32) -> Option<&Pack> {
        self.packs.get((number as usize).checked_sub(1)?)
    }

    /// How many entries more a pack can keep.
    pub fn room(&self, pack: &Pack) -> usize {
        pack.free_reserve() + self.free_common()
    }

    /// The plan's place, or None: an unknown pack, or a plan that doesn't go in. First the pack's
    /// free reserve takes entries, and then the free common part.
    pub fn keep(&mut self, number: u32, plan: &[Entry]) -> Option<usize> {
        let pack = self.pack(number)?;
        let (mut reserve, mut common) = (pack.free_reserve(), self.free_common());
        let mut entries = pack.entries.clone();
        let place = entries.len();
        for entry in plan {
            let part = if reserve > 0 { Part::Reserve } else { Part::Common };
            let free = if reserve > 0 { &mut reserve } else { &mut common };
            *free = free.checked_sub(1)?;
            entries.push((*entry, part));
        }
        self.packs[number as usize - 1].entries = entries;
        Some(place)
    }

    /// Zeros if there is none.
    pub fn read(&self, number: u32, place: u32) -> Entry {
        let entry = self.pack(number).and_then(|pack| pack.entries.get(place as usize));
        entry.map_or([0; 5], |(entry, _)| *entry)
    }

    /// All entries end, and no share.
    pub fn empty(&mut self) {
        self.packs.iter_mut().for_each(|pack| pack.entries.clear());
    }
}
