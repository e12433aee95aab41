//! Two parties over one set of tables: what each may call, what it gets back and what it leaves.

use super::adding::Addition;
use super::calls::{Calls, Planning};
use super::words::{Words, NAME_WORDS};
use crate::matching::case::Case;
use crate::matching::comparison::UNWRITTEN;
use crate::sheets::Draft;

/// What both share. The names of the draft are those in use.
#[derive(Clone, Debug)]
pub struct Shared {
    pub draft: Draft,
    /// The words of the free places.
    pub free: Vec<u32>,
}

impl Shared {
    /// All that is shared: the words, and how many names are in use.
    pub fn words(&self) -> (Words, usize) {
        (Words::of(&self.draft, &self.free), self.draft.names.len())
    }
}

/// As document 01 has it, with no number of `_`.
#[derive(Clone, Debug, PartialEq)]
pub struct Scope {
    pub marks: Vec<u8>,
    pub scheduler: u32,
}

pub const MARKS: usize = 128;
const BOUND: u8 = 1;
const BOUND_HERE: u8 = 2;
const UNBOUND: u8 = 4;
const LOCAL: u8 = 8;

#[derive(Clone, Debug)]
pub enum Call {
    /// With its buffers and lists as the party lends them: the length of a plan buffer is its room.
    Plan {
        planning: Planning,
        room: usize,
    },
    Body {
        lines: Vec<u32>,
        room: usize,
    },
    Run {
        scoping: u32,
        pattern: u32,
        value: u32,
        values: Vec<u32>,
        room: usize,
    },
    Report {
        scoping: u32,
        pattern: u32,
        length: usize,
    },
    Bind(u32),
    AddUnbound(u32),
    Child,
    AddName {
        start: u32,
        length: u32,
    },
    /// Rules are loaded: the tables are then these.
    Load(Box<Shared>),
}

#[derive(Clone, Copy, Debug, PartialEq, Eq)]
pub enum Party {
    House,
    Shop,
}

impl Party {
    pub fn other(self) -> Self {
        match self {
            Self::House => Self::Shop,
            Self::Shop => Self::House,
        }
    }
}

#[derive(Clone, Debug)]
pub struct Event {
    pub party: Party,
    pub call: Call,
}

/// What a party gets back: the result, and what it lent as it then stands, the answer first.
#[derive(Clone, Debug, PartialEq)]
pub struct Seen {
    pub number: u32,
    pub lent: Vec<Vec<u32>>,
}

impl Seen {
    fn number(number: u32) -> Self {
        Self { number, lent: Vec::new() }
    }
}

#[derive(Clone, Debug)]
pub struct State {
    pub shared: Shared,
    pub scopes: [Scope; 2],
}

/// The words lent for an answer: a body's are five.
const ANSWER: usize = 6;

impl State {
    pub fn scope(&self, party: Party) -> &Scope {
        &self.scopes[party as usize]
    }

    /// The tables with a party's scope.
    fn case(&self, party: Party, scoping: u32, pattern: u32, value: u32) -> Case {
        let scope = self.scope(party);
        let mut case = Case::new(self.shared.draft.clone());
        case.draft.roots = [pattern, value, 0];
        Case { marks: scope.marks.clone(), scheduler: scope.scheduler, scoping, ..case }
    }

    pub fn call(&mut self, calls: &Calls, Event { party, call }: &Event) -> Seen {
        let party = *party;
        match call {
            Call::Bind(name) => self.mark(party, *name, BOUND | BOUND_HERE, UNBOUND | LOCAL),
            Call::AddUnbound(name) => self.mark(party, *name, UNBOUND, BOUND | BOUND_HERE | LOCAL),
            Call::Child => {
                let marks = &mut self.scopes[party as usize].marks;
                marks.iter_mut().for_each(|mark| *mark &= !BOUND_HERE);
                Seen::number(0)
            }
            Call::AddName { start, length } => self.add_name(calls, *start, *length),
            Call::Load(shared) => {
                self.shared = Shared::clone(shared);
                Seen::number(0)
            }
            Call::Plan { planning, room } => self.plan(calls, party, *planning, *room),
            Call::Body { lines, room } => self.body(calls, party, lines, *room),
            Call::Run { scoping, pattern, value, values, room } => {
                let case = self.case(party, *scoping, *pattern, *value);
                let (mut values, mut plan, mut answer) = (values.clone(), plan(*room), answer());
                let number = (calls.run)(&case, &mut values, &mut plan, &mut answer);
                Seen { number, lent: vec![answer, plan, values] }
            }
            Call::Report { scoping, pattern, length } => {
                let case = self.case(party, *scoping, *pattern, 0);
                let (mut list, mut answer) = (vec![9; *length], answer());
                let number = (calls.report)(&case, &mut list, &mut answer);
                Seen { number, lent: vec![answer, list] }
            }
        }
    }

    fn plan(&self, calls: &Calls, party: Party, planning: Planning, room: usize) -> Seen {
        let case = self.case(party, planning.scoping, 0, 0);
        let (mut plan, mut answer) = (plan(room), answer());
        let number = (calls.plan)(&case, planning, &mut plan, &mut answer);
        Seen { number, lent: vec![answer, plan] }
    }

    fn body(&mut self, calls: &Calls, party: Party, lines: &[u32], room: usize) -> Seen {
        let mut case = self.case(party, 1, 0, 0);
        let (mut plan, mut answer) = (plan(room), answer());
        let number = (calls.body)(&mut case, lines, &mut plan, &mut answer);
        self.scopes[party as usize].marks = case.marks;
        Seen { number, lent: vec![answer, plan] }
    }

    /// A scope call: some marks of a name are set, others cleared.
    fn mark(&mut self, party: Party, name: u32, set: u8, cleared: u8) -> Seen {
        let marks = &mut self.scopes[party as usize].marks;
        match (name as usize).checked_sub(1).and_then(|place| marks.get_mut(place)) {
            Some(mark) => {
                *mark = *mark & !cleared | set;
                Seen::number(0)
            }
            None => Seen::number(8),
        }
    }

    fn add_name(&mut self, calls: &Calls, start: u32, length: u32) -> Seen {
        let (words, used) = self.shared.words();
        let mut addition = Addition { words, used: used as u32, start, length };
        let mut answer = answer();
        let number = (calls.add_name)(&mut addition, &mut answer);
        if number == 0 {
            let used = used + answer[2] as usize;
            let (names, free) = addition.words.names.split_at(used * NAME_WORDS);
            self.shared.draft.names = names.chunks(NAME_WORDS).map(|w| [w[0], w[1], 0]).collect();
            self.shared.free = free.to_vec();
        }
        Seen { number, lent: vec![answer] }
    }
}

/// A plan buffer and words for an answer, with what no call writes there.
fn plan(room: usize) -> Vec<u32> {
    vec![9; room]
}

fn answer() -> Vec<u32> {
    vec![UNWRITTEN; ANSWER]
}
