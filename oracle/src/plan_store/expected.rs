//! What document 02 has a call answer, and which class of calls it is of.

use super::layout::entries_of;
use super::model::{Store, MOST_PACKS};
use super::step::{Call, Step};
use super::tally::Class;

pub struct Expected {
    pub class: Class,
    pub result: u32,
    /// The words of the answer or of the entry.
    pub told: Vec<u32>,
    /// The store afterwards; None where the words have to stay as they were.
    pub after: Option<Store>,
}

/// What is lent as a store.
#[derive(Clone, Copy)]
pub enum Lent<'a> {
    Store(&'a Store),
    /// Words of another length than a store's.
    OtherLength,
    /// Words that no calls can give.
    NoStore,
}

pub fn expected(lent: Lent, step: &Step) -> Expected {
    match &step.call {
        Call::SetUp { shares } => set_up(lent, shares),
        Call::Keep { pack, plan, entries } => keep(lent, *pack, plan, *entries as usize),
        Call::Read { pack, place } => read(lent, *pack, *place),
        Call::Empty => empty(lent),
        Call::Damage(_) => unreachable!("no call"),
    }
}

fn refused(class: Class, number: u32) -> Expected {
    Expected { class, result: number, told: vec![number, 0, 0, 0], after: None }
}

fn set_up(lent: Lent, shares: &[u32]) -> Expected {
    if matches!(lent, Lent::OtherLength) {
        return refused(Class::SetUpLength, 34);
    }
    let reserved: u64 = shares.iter().map(|share| u64::from(*share)).sum();
    let class = match (shares.len(), reserved) {
        (9.., _) => Class::NinePacks,
        (_, 1537) => Class::SharesOneAbove,
        (_, 1538..) => Class::SharesAbove,
        (0, _) => Class::NoPack,
        (_, 1536) => Class::AllReserved,
        (MOST_PACKS, _) => Class::EightPacks,
        _ => Class::Ready,
    };
    match Store::set_up(shares) {
        None => refused(class, 34),
        after => Expected { class, result: 0, told: Vec::new(), after },
    }
}

fn keep(lent: Lent, pack: u32, plan: &[u32], entries: usize) -> Expected {
    let store = match lent {
        Lent::OtherLength => return refused(Class::KeepLength, 35),
        Lent::NoStore => return refused(Class::KeepNoStore, 35),
        Lent::Store(store) => store,
    };
    let there = entries_of(plan);
    if there.len() < entries {
        let by_a_word = plan.len() + 1 == entries * 5;
        return refused(if by_a_word { Class::PastByAWord } else { Class::PastBuffer }, 35);
    }
    let mut after = store.clone();
    match after.keep(pack, &there[..entries]) {
        None => refused(refused_class(store, pack, entries), 35),
        Some(place) => {
            let class = kept_class(store, pack, entries);
            Expected { class, result: 0, told: vec![0, place as u32, 0, 0], after: Some(after) }
        }
    }
}

fn refused_class(store: &Store, pack: u32, entries: usize) -> Class {
    match store.pack(pack) {
        None if pack == 0 => Class::PackZero,
        None => Class::PackAbove,
        Some(own) if store.room(own) + 1 == entries => Class::OneTooMany,
        Some(_) => Class::TooMany,
    }
}

fn kept_class(store: &Store, pack: u32, entries: usize) -> Class {
    let own = store.pack(pack).expect("a plan was kept");
    let (reserve, common) = (own.free_reserve(), store.free_common());
    match () {
        () if entries == 0 => Class::NoEntries,
        () if entries <= reserve && common == 0 => Class::InReserveOnly,
        () if entries <= reserve => Class::InReserve,
        () if entries == reserve + common => Class::Fills,
        () if reserve > 0 => Class::InBoth,
        () => Class::InCommon,
    }
}

fn read(lent: Lent, pack: u32, place: u32) -> Expected {
    let (class, entry) = match lent {
        Lent::OtherLength => (Class::ReadLength, [0; 5]),
        Lent::NoStore => (Class::ReadNoStore, [0; 5]),
        Lent::Store(store) => {
            let class = match store.pack(pack) {
                None => Class::ReadUnknown,
                Some(own) if own.entries.len() <= place as usize => Class::ReadPast,
                Some(_) => Class::Read,
            };
            (class, store.read(pack, place))
        }
    };
    Expected { class, result: 0, told: entry.to_vec(), after: None }
}

fn empty(lent: Lent) -> Expected {
    let store = match lent {
        Lent::OtherLength => return refused(Class::EmptyLength, 35),
        Lent::NoStore => return refused(Class::EmptyNoStore, 35),
        Lent::Store(store) => store,
    };
    let mut after = store.clone();
    after.empty();
    let class = if after == *store { Class::EmptiedNone } else { Class::Emptied };
    Expected { class, result: 0, told: Vec::new(), after: Some(after) }
}
