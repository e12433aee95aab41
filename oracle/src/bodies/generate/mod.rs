//! The seeded generator of rule bodies.

mod faults;
mod lines;
mod names;

use super::case::{Case, LINE_WORDS, MARKS};
use crate::answer::ENTRY_WORDS;
use crate::generate::{disguise::disguise, Random};
use crate::sheets::{encode_lines, Rule};
use faults::Fault;
use names::Names;

/// The case of a number; a seed and a number give the same case everywhere.
pub fn case(seed: u64, number: u64) -> Case {
    let random = &mut Random::of_case(seed, number);
    let faults = if random.chance(12) { Fault::some(random) } else { Vec::new() };
    let (mut rules, scheduler) = rules(random);
    faults.iter().for_each(|fault| fault.in_rules(random, &mut rules));
    let mut case = laid_out(random, &rules, scheduler);
    if random.chance(3) {
        repeat_lines(random, &mut case);
    }
    lend(random, &mut case);
    faults.iter().for_each(|fault| fault.in_case(random, &mut case));
    case
}

/// The lines, all with one scope, and whether it is a scheduler's.
fn rules(random: &mut Random) -> (Vec<Rule>, bool) {
    let names = &mut Names::new(random);
    let count = match random.weighted(&[15, 20, 20, 15, 10, 20]) {
        5 => 6 + random.below(8),
        fewer => 1 + fewer,
    };
    let mut rules: Vec<Rule> = (0..count).map(|_| lines::line(random, names)).collect();
    rules.push(lines::plain_line(random, names));
    rules.truncate(if random.chance(50) { count } else { count + 1 });
    rules.iter_mut().for_each(|rule| rule.scope.clone_from(&names.scope));
    (rules, names.scheduler)
}

fn laid_out(random: &mut Random, rules: &[Rule], scheduler: bool) -> Case {
    let (mut draft, mut lines) = encode_lines(rules);
    if random.chance(80) {
        let numbers = disguise(random, &mut draft);
        for [_, roots @ ..] in &mut lines {
            *roots = roots.map(|root| numbers[root as usize]);
        }
    }
    Case {
        marks: draft.names.iter().map(|name| name[2] as u8).collect(),
        scheduler: scheduler.into(),
        lines: lines.concat(),
        room: ENTRY_WORDS * 2 * draft.nodes.len(),
        answer_room: 5,
        draft,
    }
}

/// The last line again and again, to 63, 64 or 65 lines.
fn repeat_lines(random: &mut Random, case: &mut Case) {
    let lines = 63 + random.weighted(&[20, 60, 20]);
    let last = case.lines[case.lines.len() - LINE_WORDS..].to_vec();
    while case.lines.len() < LINE_WORDS * lines {
        case.lines.extend(&last);
    }
}

/// Roots that no line uses, marks, a buffer and an answer that are longer or shorter than needed.
fn lend(random: &mut Random, case: &mut Case) {
    for line in case.lines.chunks_mut(LINE_WORDS) {
        let unused = *random.pick(&[0, 1, 999_999, u32::MAX]);
        match line[0] {
            2 | 3 if random.chance(10) => line[3] = unused,
            5 if random.chance(30) => (line[2], line[3]) = (unused, unused),
            _ => {}
        }
    }
    match random.weighted(&[60, 20, 10, 10]) {
        0 => {}
        1 => case.marks.truncate(random.below(case.marks.len() + 1)),
        2 => case.marks.resize(MARKS, 31),
        _ => case.marks.resize(MARKS + 1 + random.below(3), 200),
    }
    if case.marks.len() > MARKS {
        case.marks[case.draft.names.len()..MARKS].fill(9);
    }
    match random.weighted(&[60, 30, 10]) {
        0 => case.room += random.below(ENTRY_WORDS),
        1 => case.room = random.below(16 * ENTRY_WORDS),
        _ => case.room = 0,
    }
    if random.chance(30) {
        case.answer_room = random.below(8);
    }
}

#[cfg(test)]
mod tests {
    use super::*;

    #[test]
    fn a_number_is_always_the_same_case() {
        let text = |seed| format!("{:?}", case(seed, 5));
        assert_eq!(text(1), text(1));
        assert_ne!(text(1), text(2));
    }
}
