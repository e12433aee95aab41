//! Runs that are refused, and some that only nearly are.

use super::trees::value;
use super::Parts;
use crate::generate::{damage, Random};
use crate::matching::case::Case;
use crate::sheets::Tree;

#[derive(Clone, Copy, Debug)]
pub enum Fault {
    PatternNotSimple,
    NoValue,
    ListedNoValue,
    ListedOutside,
    NameWithoutValue,
    ListTooShort,
    RootOutside,
    AnyRoot,
    PlanTooLarge,
    Marks,
    Numbers,
    Tables,
    EqualNames,
    TooDeep,
    OverLimit,
}

use Fault::*;

const ALL: [(Fault, usize); 15] = [
    (PatternNotSimple, 20),
    (NoValue, 15),
    (ListedNoValue, 10),
    (ListedOutside, 10),
    (NameWithoutValue, 20),
    (ListTooShort, 15),
    (RootOutside, 15),
    (AnyRoot, 10),
    (PlanTooLarge, 25),
    (Marks, 5),
    (Numbers, 5),
    (Tables, 10),
    (EqualNames, 5),
    (TooDeep, 5),
    (OverLimit, 1),
];

impl Fault {
    /// Mostly one, so that each is met alone; else two or three, so that their order counts.
    pub fn some(random: &mut Random) -> Vec<Self> {
        let count = 1 + random.weighted(&[60, 30, 10]);
        let weights = ALL.map(|(_, weight)| weight);
        (0..count).map(|_| ALL[random.weighted(&weights)].0).collect()
    }

    pub fn in_parts(self, random: &mut Random, parts: &mut Parts) {
        match self {
            PatternNotSimple => spoil(random, &mut parts.pattern),
            NoValue if random.chance(30) => insert(random, &mut parts.value, Tree::name("x")),
            NoValue => spoil(random, &mut parts.value),
            ListedNoValue => {
                let place = random.below(parts.listed.len());
                let mut tree = value(random, 1);
                spoil(random, &mut tree);
                parts.listed[place] = Some(tree);
            }
            TooDeep => {
                // the array around it is one level more
                let levels = 30 + random.below(3);
                let deep = (1..levels).fold(Tree::Null, |inner, _| Tree::Array(vec![inner]));
                parts.spare.push(deep);
            }
            OverLimit => parts.spare.extend(vec![Tree::Null; 490 + random.below(40)]),
            _ => {}
        }
    }

    pub fn in_case(self, random: &mut Random, case: &mut Case) {
        let nodes = case.draft.nodes.len();
        match self {
            ListedOutside => {
                let word = *random.pick(&[nodes as u32 + 1, 999_999, u32::MAX]);
                if !case.values.is_empty() {
                    let place = random.below(case.values.len());
                    case.values[place] = word;
                }
            }
            NameWithoutValue => {
                case.values.iter_mut().filter(|_| random.chance(60)).for_each(|node| *node = 0);
            }
            ListTooShort => {
                let names = case.draft.names.len();
                case.values.truncate(random.below(names + 1));
            }
            RootOutside => {
                let outside = [0, nodes as u32 + 1, u32::MAX];
                case.draft.roots[random.below(2)] = *random.pick(&outside);
            }
            AnyRoot => case.draft.roots[random.below(2)] = 1 + random.below(nodes) as u32,
            PlanTooLarge => case.room -= case.room.min(1 + random.weighted(&[40, 20, 10, 20, 10])),
            Marks => {
                let length = *random.pick(&[1, 127, 128, 129]);
                case.marks.resize(length.max(case.marks.len()), 0);
                case.marks[length - 1] = *random.pick(&[31, 32, 64, 255]);
            }
            Numbers if random.chance(50) => case.scheduler = *random.pick(&[1, 2, u32::MAX]),
            Numbers => case.scoping = *random.pick(&[0, 2, 5, u32::MAX]),
            Tables => damage::break_tables(random, &mut case.draft),
            EqualNames => damage::repeat_name(random, &mut case.draft),
            _ => {}
        }
    }
}

/// A set, another expression, a computed or a repeated key.
fn spoil(random: &mut Random, tree: &mut Tree) {
    let one = || Tree::Number(1);
    let part = match random.below(5) {
        0 => Tree::Set(Vec::new()),
        1 => Tree::Set(vec![one()]),
        2 => Tree::Other,
        3 => Tree::Object(vec![(Tree::name("x"), one())]),
        _ => Tree::Object(vec![(Tree::string("k"), one()), (Tree::RawString("k".into()), one())]),
    };
    insert(random, tree, part);
}

/// Puts a part in the place of any node, the keys of objects aside.
fn insert(random: &mut Random, tree: &mut Tree, part: Tree) {
    match tree {
        Tree::Array(items) if !items.is_empty() && random.chance(70) => {
            let place = random.below(items.len());
            insert(random, &mut items[place], part);
        }
        Tree::Object(fields) if !fields.is_empty() && random.chance(70) => {
            let place = random.below(fields.len());
            insert(random, &mut fields[place].1, part);
        }
        node => *node = part,
    }
}
