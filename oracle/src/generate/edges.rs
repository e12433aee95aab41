//! Sheets at the limits, with any operation.

use super::random::Random;
use crate::sheets::draft::Draft;
use crate::sheets::{encode, limits, Operation, Rule, Tree};

pub fn at_a_limit(random: &mut Random) -> Draft {
    let past = random.below(2);
    let draft = match random.below(7) {
        0 => limits::nodes(512 + past),
        1 => limits::children(512 + past),
        2 => limits::numbers(256 + past),
        3 => limits::names(128 + past),
        4 => limits::name_bytes(255 + past),
        5 => limits::string_bytes(8192 + past),
        _ => limits::text_bytes(16384 + past),
    };
    any_operation(random, draft)
}

/// The root in the place of every root that the operation uses.
fn any_operation(random: &mut Random, mut draft: Draft) -> Draft {
    let root = draft.roots[0];
    draft.operation = 1 + random.below(6) as u32;
    draft.scoping = 1 + random.below(4) as u32;
    draft.roots = [root, root, *random.pick(&[0, root])];
    draft.names.iter_mut().for_each(|name| name[2] = random.below(4) as u32);
    draft
}

/// Depth 31 to 34, by arrays, sets, object values and object keys.
pub fn deep(random: &mut Random) -> Draft {
    let depth = 31 + random.below(4);
    let mut tree = Tree::name("x");
    for _ in 1..depth {
        tree = match random.weighted(&[70, 10, 15, 5]) {
            0 => Tree::Array(vec![tree]),
            1 => Tree::Set(vec![tree, Tree::Null]),
            2 => Tree::Object(vec![(Tree::string("k"), tree)]),
            _ => Tree::Object(vec![(tree, Tree::Null)]),
        };
    }
    any_operation(random, encode(&Rule::new(Operation::Pattern, tree)))
}

/// Pairs whose plan has about as many entries as the buffer, or many more.
pub fn many_entries(random: &mut Random) -> Draft {
    let draft = match random.below(4) {
        0 => limits::pairs(26, 57),
        1 => limits::pairs(5, 305),
        2 => {
            let times = 5 + random.below(30);
            limits::pairs(times, 1532 / times + random.below(4) - 3)
        }
        _ => limits::pairs(2 + random.below(60), 2 + random.below(250)),
    };
    Draft { scoping: 1 + random.below(4) as u32, ..draft }
}
