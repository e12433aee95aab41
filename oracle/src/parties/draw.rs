//! The seeded generator of tables that two parties share, of scopes and of calls.

use super::calls::Planning;
use super::history::{Call, Scope, Shared, MARKS};
use crate::generate::{draft, Random};
use crate::matching::generate::case;

/// Tables of sheets and of runs, with up to three free places.
pub fn shared(random: &mut Random) -> Shared {
    let (seed, number) = (random.below(1 << 20) as u64, random.below(1 << 20) as u64);
    let draft = if random.chance(50) { draft(seed, number) } else { case(seed, number).draft };
    let free = 2 * random.weighted(&[10, 30, 30, 30]);
    let free = (0..free).map(|_| *random.pick(&[0, 1, 77, u32::MAX])).collect();
    Shared { draft, free }
}

pub fn scope(random: &mut Random) -> Scope {
    let mut marks = vec![0; MARKS];
    let some = marks.iter_mut().take(8).filter(|_| random.chance(40));
    some.for_each(|mark| *mark = 1);
    for mark in marks.iter_mut().take(8).filter(|mark| **mark == 1) {
        *mark = *random.pick(&[1, 1, 2, 3, 4, 8, 9, 16, 17, 31]);
    }
    Scope { marks, scheduler: random.below(2) as u32 }
}

/// A call on these tables.
pub fn call(random: &mut Random, shared: &Shared) -> Call {
    let scoping = 1 + random.below(4) as u32;
    match random.weighted(&[20, 15, 20, 10, 8, 6, 4, 14, 3]) {
        0 => {
            let any = 1 + random.below(6) as u32;
            let operation = if random.chance(50) { shared.draft.operation } else { any };
            let roots = roots(random, shared);
            let version = random.below(2) as u32;
            let planning = Planning { operation, scoping, roots, version };
            Call::Plan { planning, room: room(random, shared) }
        }
        1 => Call::Body { lines: lines(random, shared), room: room(random, shared) },
        2 => {
            let [pattern, value, _] = roots(random, shared);
            let values = values(random, shared);
            Call::Run { scoping, pattern, value, values, room: room(random, shared) }
        }
        3 => {
            let length = length(random, shared);
            Call::Report { scoping, pattern: roots(random, shared)[0], length }
        }
        4 => Call::Bind(name(random, shared)),
        5 => Call::AddUnbound(name(random, shared)),
        6 => Call::Child,
        7 => add_name(random, shared),
        _ => Call::Load(Box::new(self::shared(random))),
    }
}

/// Mostly the roots that the tables were made for.
fn roots(random: &mut Random, shared: &Shared) -> [u32; 3] {
    let nodes = shared.draft.nodes.len();
    shared.draft.roots.map(
        |root| {
            if random.chance(85) {
                root
            } else {
                random.below(nodes + 2) as u32
            }
        },
    )
}

/// Mostly space for every plan.
fn room(random: &mut Random, shared: &Shared) -> usize {
    match random.weighted(&[90, 10]) {
        0 => 5 * (2 * shared.draft.nodes.len() + 2),
        _ => random.below(16),
    }
}

/// Lines of `:=`, `=`, some-in and indices, at times of something else.
fn lines(random: &mut Random, shared: &Shared) -> Vec<u32> {
    let count = 1 + random.below(3);
    let mut lines = Vec::new();
    for _ in 0..count {
        let operation = if random.chance(97) { 2 + random.below(4) as u32 } else { 6 };
        lines.push(operation);
        lines.extend(roots(random, shared));
    }
    lines
}

fn length(random: &mut Random, shared: &Shared) -> usize {
    let names = shared.draft.names.len();
    match random.weighted(&[20, 70, 10]) {
        0 => names,
        1 => names + random.below(8),
        _ => names.saturating_sub(1),
    }
}

fn values(random: &mut Random, shared: &Shared) -> Vec<u32> {
    let (length, nodes) = (length(random, shared), shared.draft.nodes.len());
    let node = |place| if place < shared.draft.names.len() { random.below(nodes + 1) } else { 0 };
    let mut values: Vec<u32> = (0..length).map(node).map(|node| node as u32).collect();
    if random.chance(60) {
        values.fill(0);
    }
    values
}

/// Of a name in use, of one that may be added, or of none.
fn name(random: &mut Random, shared: &Shared) -> u32 {
    match random.weighted(&[90, 10]) {
        0 => 1 + random.below(shared.draft.names.len() + 1) as u32,
        _ => *random.pick(&[0, 128, 129]),
    }
}

pub fn add_name(random: &mut Random, shared: &Shared) -> Call {
    let text = shared.draft.text.len();
    let start = random.below(text + 1) as u32;
    if random.chance(25) {
        if let Some(&[start, length, _]) = shared.draft.names.first() {
            return Call::AddName { start, length };
        }
    }
    Call::AddName { start, length: random.weighted(&[5, 45, 30, 20]) as u32 }
}
