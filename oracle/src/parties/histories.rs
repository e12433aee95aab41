//! Carries histories of two parties out twice: from a party's first scope, with its own calls and
//! the tables at each, and whatever else the other does. What the party gets back has to be the same.

use super::calls::Calls;
use super::draw;
use super::history::{Call, Event, Party, Scope, Seen, State};
use crate::generate::Random;
use std::collections::BTreeMap;
use std::fmt;

/// Differences beyond these are counted alone.
const KEPT: usize = 20;

pub struct Comparison {
    calls: Calls,
    pub histories: u64,
    pub differing: u64,
    pub differences: Vec<String>,
    /// A party's own calls, by what came of them.
    own: BTreeMap<&'static str, u64>,
    /// The other's calls in the second history.
    others: u64,
    /// Tables that the other put back before a call.
    put_back: u64,
    /// Own calls that met more names and answered the same, as they have to.
    more_names: u64,
    /// Histories whose tables at a call did not agree, and that gave something else.
    told_apart: u64,
}

/// All that may come of a party's own calls.
const CLASSES: [&str; 18] = [
    "plan",
    "plan refused",
    "body",
    "body refused",
    "run, match",
    "run, no match",
    "run refused",
    "report",
    "report refused",
    "bind",
    "bind refused",
    "add unbound",
    "add unbound refused",
    "child",
    "name added",
    "name stands there",
    "name refused",
    "load",
];

/// A party's own calls with the tables that they met, what it got back, and its scope at the end.
struct Told {
    own: Vec<(Call, State)>,
    seen: Vec<Seen>,
    scope: Scope,
}

impl Comparison {
    pub fn new(calls: Calls) -> Self {
        Self {
            calls,
            histories: 0,
            differing: 0,
            differences: Vec::new(),
            own: BTreeMap::new(),
            others: 0,
            put_back: 0,
            more_names: 0,
            told_apart: 0,
        }
    }

    /// The history of a number; a seed and a number give the same one everywhere.
    pub fn history(&mut self, seed: u64, number: u64) {
        let random = &mut Random::of_case(seed, number);
        let party = *random.pick(&[Party::House, Party::Shop]);
        let start = state(random);
        let told = self.carry_out(random, party, start.clone());
        told.own.iter().zip(&told.seen).for_each(|((call, _), seen)| {
            *self.own.entry(class(call, seen)).or_default() += 1;
        });
        let (seen, scope) = self.carry_out_again(random, party, &start, &told);
        if let Some(place) = (0..seen.len()).find(|&place| seen[place] != told.seen[place]) {
            let (call, _) = &told.own[place];
            let (first, second) = (&told.seen[place], &seen[place]);
            self.differs(format!("own call {place}, {call:?}: {first:?}, then {second:?}"));
        } else if scope != told.scope {
            self.differs(format!("the scope: {:?}, then {scope:?}", told.scope));
        }
        self.with_more_names(random, party, &told);
        self.without_putting_back(random, party, &start, &told);
        self.histories += 1;
    }

    fn differs(&mut self, what: String) {
        self.differing += 1;
        if self.differences.len() < KEPT {
            self.differences.push(format!("history {}: {what}", self.histories));
        }
    }

    /// Calls of both parties, drawn on the tables as they stand.
    fn carry_out(&self, random: &mut Random, party: Party, mut state: State) -> Told {
        let (mut own, mut seen) = (Vec::new(), Vec::new());
        for _ in 0..4 + random.below(8) {
            let by = *random.pick(&[Party::House, Party::Shop]);
            let event = Event { party: by, call: draw::call(random, &state.shared) };
            let before = state.clone();
            let told = state.call(&self.calls, &event);
            if by == party {
                own.push((event.call, before));
                seen.push(told);
            }
        }
        Told { own, seen, scope: state.scope(party).clone() }
    }

    /// The same own calls on the same tables, between other calls of the other party, which has
    /// another scope and at first perhaps other tables.
    fn carry_out_again(
        &mut self,
        random: &mut Random,
        party: Party,
        start: &State,
        told: &Told,
    ) -> (Vec<Seen>, Scope) {
        let mut state = other_start(random, party, start);
        let mut seen = Vec::new();
        for (call, met) in &told.own {
            self.others_turn(random, party, &mut state);
            if state.shared.words() != met.shared.words() {
                self.put_back += 1;
                let load = Call::Load(Box::new(met.shared.clone()));
                state.call(&self.calls, &Event { party: party.other(), call: load });
            }
            seen.push(state.call(&self.calls, &Event { party, call: call.clone() }));
        }
        self.others_turn(random, party, &mut state);
        (seen, state.scope(party).clone())
    }

    fn others_turn(&mut self, random: &mut Random, party: Party, state: &mut State) {
        for _ in 0..random.below(4) {
            let call = draw::call(random, &state.shared);
            state.call(&self.calls, &Event { party: party.other(), call });
            self.others += 1;
        }
    }

    /// Each own call again, where the other has added names before it: plans and bodies stay, runs
    /// and reports whose list has a place for each name then in use, with 0 for the new ones.
    fn with_more_names(&mut self, random: &mut Random, party: Party, told: &Told) {
        for ((call, met), seen) in told.own.iter().zip(&told.seen) {
            let mut state = met.clone();
            let add = draw::add_name(random, &state.shared);
            state.call(&self.calls, &Event { party: party.other(), call: add });
            let [before, then] = [met, &state].map(|state| state.shared.draft.names.len());
            if before == then || !stays(call, before, then) {
                continue;
            }
            self.more_names += 1;
            let again = state.call(&self.calls, &Event { party, call: call.clone() });
            if again != *seen {
                self.differs(format!("{call:?} with a name more: {seen:?}, then {again:?}"));
            }
        }
    }

    /// The control: the other's turns without the tables being put back.
    fn without_putting_back(
        &mut self,
        random: &mut Random,
        party: Party,
        start: &State,
        told: &Told,
    ) {
        let mut state = start.clone();
        let mut agree = true;
        for ((call, _), seen) in told.own.iter().zip(&told.seen) {
            self.others_turn(random, party, &mut state);
            agree &= state.call(&self.calls, &Event { party, call: call.clone() }) == *seen;
        }
        self.told_apart += u64::from(!agree);
    }

    /// Classes that were never met.
    pub fn unmet(&self) -> Vec<String> {
        let classes = CLASSES.iter().filter(|class| !self.own.contains_key(*class));
        let counts = [
            ("tables put back", self.put_back),
            ("own calls with a name more", self.more_names),
            ("histories told apart by their tables", self.told_apart),
        ];
        let counts = counts.into_iter().filter(|(_, count)| *count == 0);
        classes.copied().chain(counts.map(|(name, _)| name)).map(String::from).collect()
    }
}

fn state(random: &mut Random) -> State {
    State { shared: draw::shared(random), scopes: [draw::scope(random), draw::scope(random)] }
}

/// Another scope of the other party, and in a third of the cases other tables.
fn other_start(random: &mut Random, party: Party, start: &State) -> State {
    let mut state = state(random);
    state.scopes[party as usize] = start.scope(party).clone();
    if random.chance(67) {
        state.shared = start.shared.clone();
    }
    state
}

/// Whether a call answers the same with more names in use.
fn stays(call: &Call, before: usize, then: usize) -> bool {
    match call {
        Call::Plan { .. } | Call::Body { .. } => true,
        Call::Run { values, .. } => {
            values.len() >= then && values[before..then].iter().all(|&node| node == 0)
        }
        Call::Report { length, .. } => *length >= then,
        _ => false,
    }
}

fn class(call: &Call, seen: &Seen) -> &'static str {
    match (call, seen.number) {
        (Call::Plan { .. }, 0) => "plan",
        (Call::Plan { .. }, _) => "plan refused",
        (Call::Body { .. }, 0) => "body",
        (Call::Body { .. }, _) => "body refused",
        (Call::Run { .. }, 0) => "run, match",
        (Call::Run { .. }, 100) => "run, no match",
        (Call::Run { .. }, _) => "run refused",
        (Call::Report { .. }, 0) => "report",
        (Call::Report { .. }, _) => "report refused",
        (Call::Bind(_), 0) => "bind",
        (Call::Bind(_), _) => "bind refused",
        (Call::AddUnbound(_), 0) => "add unbound",
        (Call::AddUnbound(_), _) => "add unbound refused",
        (Call::Child, _) => "child",
        (Call::AddName { .. }, 0) if seen.lent[0][2] == 1 => "name added",
        (Call::AddName { .. }, 0) => "name stands there",
        (Call::AddName { .. }, _) => "name refused",
        (Call::Load(_), _) => "load",
    }
}

impl fmt::Display for Comparison {
    fn fmt(&self, f: &mut fmt::Formatter<'_>) -> fmt::Result {
        let counts = self.own.iter().map(|(class, count)| (format!("own calls: {class}"), *count));
        let rest = [
            ("the other's calls between them", self.others),
            ("tables put back before an own call", self.put_back),
            ("own calls with a name more, the same", self.more_names),
            ("told apart where the tables did not agree", self.told_apart),
        ];
        let rest = rest.map(|(name, count)| (name.to_string(), count));
        counts.chain(rest).try_for_each(|(name, count)| writeln!(f, "{name:42}{count:9}"))
    }
}
