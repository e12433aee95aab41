//! Bodies that are refused before their lines are planned, and some that only nearly are.

use crate::bodies::case::{Case, LINE_WORDS, MARKS};
use crate::generate::{damage, Random};
use crate::sheets::{Operation, Rule, Tree};

#[derive(Clone, Copy, Debug)]
pub enum Fault {
    Length,
    NoLine,
    ManyLines,
    Operation,
    Scheduler,
    Marks,
    Root,
    Tables,
    EqualNames,
    TooDeep,
    OverLimit,
}

use Fault::*;

const ALL: [(Fault, usize); 11] = [
    (Length, 10),
    (NoLine, 5),
    (ManyLines, 10),
    (Operation, 20),
    (Scheduler, 10),
    (Marks, 15),
    (Root, 20),
    (Tables, 20),
    (EqualNames, 10),
    (TooDeep, 10),
    (OverLimit, 5),
];

impl Fault {
    /// Mostly one, so that each is met alone; else two or three, so that their order counts.
    pub fn some(random: &mut Random) -> Vec<Self> {
        let count = 1 + random.weighted(&[70, 20, 10]);
        let weights = ALL.map(|(_, weight)| weight);
        (0..count).map(|_| ALL[random.weighted(&weights)].0).collect()
    }

    /// As a line more.
    pub fn in_rules(self, random: &mut Random, rules: &mut Vec<Rule>) {
        let tree = match self {
            TooDeep => {
                let levels = 31 + random.below(4);
                (1..levels).fold(Tree::Null, |inner, _| Tree::Array(vec![inner]))
            }
            OverLimit => Tree::Array(vec![Tree::Null; 470 + random.below(60)]),
            _ => return,
        };
        rules.push(Rule::two_sided(self::Operation::Equals, Tree::name("_"), tree));
    }

    pub fn in_case(self, random: &mut Random, case: &mut Case) {
        let nodes = case.draft.nodes.len() as u32;
        let lines = (case.lines.len() / LINE_WORDS).max(1);
        let at = LINE_WORDS * random.below(lines);
        match self {
            Length if random.chance(50) => drop(case.lines.pop()),
            Length => case.lines.extend(vec![2; 1 + random.below(3)]),
            NoLine => case.lines.clear(),
            ManyLines => {
                let lines = 64 + random.below(3);
                let line = case.lines.iter().take(LINE_WORDS).copied().collect::<Vec<_>>();
                while !line.is_empty() && case.lines.len() < LINE_WORDS * lines {
                    case.lines.extend(&line);
                }
            }
            Operation => {
                let operation = *random.pick(&[0, 1, 6, 7, u32::MAX]);
                case.lines.iter_mut().skip(at).take(1).for_each(|word| *word = operation);
            }
            Scheduler => case.scheduler = *random.pick(&[1, 2, u32::MAX]),
            Marks => {
                let length = *random.pick(&[1, 127, MARKS, MARKS + 1]);
                case.marks.resize(length.max(case.marks.len()), 0);
                case.marks[length - 1] = *random.pick(&[31, 32, 64, 255]);
            }
            Root => {
                let root = *random.pick(&[0, 1, nodes, nodes + 1, 999_999, u32::MAX]);
                let word = at + 1 + random.below(3);
                case.lines.iter_mut().skip(word).take(1).for_each(|word| *word = root);
            }
            Tables => damage::break_tables(random, &mut case.draft),
            EqualNames => damage::repeat_name(random, &mut case.draft),
            _ => {}
        }
    }
}
