//! What the calls of all histories met.

use std::fmt;

/// A class of calls, with its name in the tally.
macro_rules! classes {
    ($($class:ident $name:literal,)*) => {
        #[derive(Clone, Copy, Debug, PartialEq, Eq)]
        pub enum Class {
            $($class,)*
        }

        const CLASSES: &[(Class, &str)] = &[$((Class::$class, $name),)*];
    };
}

classes! {
    Ready "set up",
    AllReserved "set up, all reserved",
    EightPacks "set up, eight packs",
    NoPack "set up, no pack",
    SharesAbove "34, shares above 1,536",
    SharesOneAbove "34, shares of 1,537",
    NinePacks "34, nine packs",
    SetUpLength "34, words of another length",
    InReserve "kept in the reserve",
    InReserveOnly "kept there, common part full",
    InBoth "kept in reserve and common part",
    InCommon "kept in the common part",
    NoEntries "kept, no entries",
    Fills "kept, no space left",
    OneTooMany "35, one entry too many",
    TooMany "35, more entries too many",
    PackZero "35, pack 0",
    PackAbove "35, a pack above the last",
    PastBuffer "35, ends past its buffer",
    PastByAWord "35, ends a word past it",
    KeepLength "35, words of another length",
    KeepNoStore "35, no store",
    Read "read",
    ReadPast "zeros, past the last entry",
    ReadUnknown "zeros, an unknown pack",
    ReadLength "zeros, words of another length",
    ReadNoStore "zeros, no store",
    Emptied "emptied",
    EmptiedNone "emptied, no entries",
    EmptyLength "35, emptying another length",
    EmptyNoStore "35, emptying no store",
    SameStore "damaged, the same store",
    OtherStore "damaged, another store",
    OnePack "damaged, a store of one pack",
    NoStore "damaged, no store",
}

pub struct Tally {
    counts: Vec<u64>,
}

impl Default for Tally {
    fn default() -> Self {
        Self { counts: vec![0; CLASSES.len()] }
    }
}

impl Tally {
    pub fn add(&mut self, class: Class) {
        self.counts[class as usize] += 1;
    }

    pub fn steps(&self) -> u64 {
        self.counts.iter().sum()
    }

    /// The classes that no call met.
    pub fn unmet(&self) -> Vec<&'static str> {
        let count = |class: Class| self.counts[class as usize];
        let unmet = CLASSES.iter().filter(|(class, _)| count(*class) == 0);
        unmet.map(|(_, name)| *name).collect()
    }
}

impl fmt::Display for Tally {
    fn fmt(&self, f: &mut fmt::Formatter<'_>) -> fmt::Result {
        let lines = CLASSES.iter().zip(&self.counts);
        lines.into_iter().try_for_each(|((_, name), count)| writeln!(f, "{name:33}{count:10}"))
    }
}
