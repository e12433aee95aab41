//! What the planner is asked.

use super::entry::Plan;
use crate::matching::case::Case;
use crate::matching::reading::{expr, literal_keys, Expr};
use crate::sheets::draft::FIRST;
use crate::sheets::{encode, Operation, Rule, Tree};

/// Names with their marks.
pub type Scope = Vec<(String, u32)>;

/// A some-in value pattern and the items of its collection. Each item is a left side, and the
/// pattern its right side.
#[derive(Clone, Debug)]
pub struct Question {
    pub items: Vec<Tree>,
    pub pattern: Tree,
    pub key: Option<Tree>,
    pub scopes: Vec<Scope>,
}

pub const OPERATIONS: [Operation; 3] =
    [Operation::ColonEquals, Operation::Equals, Operation::SomeIn];

/// An operation, whether in the careful reading, and the answer's number.
pub type Answer = (Operation, bool, u32);

impl Question {
    /// The question of an item alone.
    pub fn of(&self, item: &Tree) -> Self {
        Self { items: vec![item.clone()], key: None, ..self.clone() }
    }

    /// The tables of `some PATTERN in [ITEM, ..]`, which hold both sides of an assignment as well.
    pub fn tables(&self) -> Tables {
        let collection = Tree::Array(self.items.clone());
        let rule = Rule::two_sided(Operation::SomeIn, self.pattern.clone(), collection);
        let scope = self.scopes.concat();
        let case = Case::new(encode(&Rule { key: self.key.clone(), scope, ..rule }));
        Tables { roots: case.draft.roots, case }
    }
}

pub struct Tables {
    case: Case,
    /// Pattern, collection and key.
    roots: [u32; 3],
}

impl Tables {
    /// The first item and the pattern.
    pub fn sides(&self) -> (Expr, Expr) {
        (expr(&self.case, self.item()), expr(&self.case, self.roots[0]))
    }

    /// The first item's node.
    fn item(&self) -> u32 {
        let collection = self.case.draft.nodes[self.roots[1] as usize - 1];
        self.case.draft.children[collection[FIRST] as usize]
    }

    /// Some-in alone, or `:=` and `=` of the first item and the pattern as well; in both readings.
    pub fn answers(&mut self, plan: Plan, scope: &Scope, operations: &[Operation]) -> Vec<Answer> {
        for (name, marks) in scope {
            let number = self.case.name_number(name.as_bytes());
            self.case.marks[number as usize - 1] = *marks as u8;
        }
        let mut answers = Vec::new();
        for &operation in operations {
            self.case.draft.operation = operation as u32;
            self.case.draft.roots = match operation {
                Operation::SomeIn => self.roots,
                _ => [self.item(), self.roots[0], 0],
            };
            for careful in [false, true] {
                self.case.scoping = if careful { 3 } else { 1 };
                answers.push((operation, careful, plan(&self.case)));
            }
        }
        answers
    }
}

/// Whether a key stands twice in an object of the side.
pub fn has_repeats(side: &Expr) -> bool {
    match side {
        Expr::Array(items) => items.iter().any(has_repeats),
        Expr::Object(fields) => {
            literal_keys(fields).is_none() || fields.iter().any(|(_, value)| has_repeats(value))
        }
        _ => false,
    }
}

/// A rule as it is written.
pub fn text(operation: Operation, left: &Tree, right: &Tree) -> String {
    let (first, second) = match operation {
        Operation::SomeIn => (right, Tree::Array(vec![left.clone()])),
        _ => (left, right.clone()),
    };
    let draft = encode(&Rule::two_sided(operation, first.clone(), second));
    String::from_utf8_lossy(&draft.text).into_owned()
}
