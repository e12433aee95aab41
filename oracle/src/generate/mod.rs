//! The seeded generator of sheets.

mod apart;
pub(crate) mod damage;
pub(crate) mod disguise;
pub(crate) mod edges;
pub mod exhaustive;
mod grow;
mod mutate;
mod palette;
mod random;
pub(crate) mod rules;
pub(crate) mod structures;

use crate::sheets::draft::Draft;
use crate::sheets::encode;
pub use random::Random;

/// The sheet of a case; a seed and a case give the same sheet everywhere.
pub fn sheet(seed: u64, case: u64) -> Vec<u8> {
    let random = &mut Random::of_case(seed, case);
    match random.weighted(&[610, 60, 90, 80, 30, 25, 30, 40, 30, 20]) {
        0 => planned(random).bytes(),
        1 => exhaustive::any(random),
        2 => damaged(random, damage::break_tables),
        3 => {
            let draft = planned(random);
            let mut sheet = draft.bytes();
            damage::break_bytes(random, &mut sheet, draft.strings.len() + draft.text.len());
            sheet
        }
        4 => damaged(random, damage::repeat_name),
        5 => {
            let draft = planned(random);
            damage::with_odd_words(random, draft)
        }
        6 => disguised(random, edges::deep),
        7 => edges::at_a_limit(random).bytes(),
        8 => damaged(random, damage::move_root),
        _ => disguised(random, edges::many_entries),
    }
}

/// The tables of a case, at times with a fault.
pub fn draft(seed: u64, case: u64) -> Draft {
    let random = &mut Random::of_case(seed, case);
    let mut draft = planned(random);
    if random.chance(10) {
        let faults = [damage::break_tables, damage::repeat_name, damage::move_root];
        random.pick(&faults)(random, &mut draft);
    }
    draft
}

/// A sound draft with a fault, sometimes with a second one.
fn damaged(random: &mut Random, fault: impl Fn(&mut Random, &mut Draft)) -> Vec<u8> {
    let mut draft = if random.chance(10) { edges::deep(random) } else { planned(random) };
    fault(random, &mut draft);
    if random.chance(10) {
        let faults = [damage::break_tables, damage::repeat_name, damage::move_root];
        random.pick(&faults)(random, &mut draft);
    }
    draft.bytes()
}

fn disguised(random: &mut Random, make: impl Fn(&mut Random) -> Draft) -> Vec<u8> {
    let mut draft = make(random);
    disguise::disguise(random, &mut draft);
    draft.bytes()
}

fn planned(random: &mut Random) -> Draft {
    let mut draft = encode(&rules::rule(random));
    if random.chance(80) {
        disguise::disguise(random, &mut draft);
    }
    let nodes = draft.nodes.len();
    if random.chance(3) {
        let root = 1 + random.below(nodes) as u32;
        draft.roots[random.below(2)] = root;
    }
    if matches!(draft.operation, 1 | 5 | 6) && random.chance(20) {
        let any = [0, 1, nodes as u32, nodes as u32 + 1, 999_999];
        draft.roots[1] = *random.pick(&any);
        draft.roots[2] = *random.pick(&any);
    }
    draft
}

#[cfg(test)]
mod tests {
    use super::*;
    use crate::answer::{answer, Answer};

    /// The answer without the numbers of nodes.
    fn shape(answer: &Answer) -> String {
        match &answer.outcome {
            Ok(plan) => {
                let kinds = plan.entries.iter().map(|entry| (entry.kind, entry.children));
                format!("{} {} {:?}", plan.form, plan.side, kinds.collect::<Vec<_>>())
            }
            Err(refusal) => format!("refusal {}", refusal.number),
        }
    }

    #[test]
    fn rules_keep_the_table_rules_and_a_disguise_keeps_the_answer() {
        for case in 0..2000 {
            let random = &mut Random::of_case(1, case);
            let mut draft = encode(&rules::rule(random));
            let plain = shape(&answer(&draft.bytes()));
            disguise::disguise(random, &mut draft);
            assert_eq!(shape(&answer(&draft.bytes())), plain, "case {case}");
            assert!(!["refusal 2", "refusal 7"].contains(&plain.as_str()), "case {case}");
        }
    }

    #[test]
    fn a_case_is_always_the_same_sheet() {
        assert_eq!(sheet(3, 14), sheet(3, 14));
        assert_ne!(sheet(3, 14), sheet(4, 14));
    }
}
