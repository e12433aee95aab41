//! Asks the planner, and decides of the sides that it refuses whether they can be made equal.

use super::entry::Plan;
use super::question::{has_repeats, text, Answer, Question, Tables, OPERATIONS};
use super::tally::{is_shape_refusal, Tally};
use super::trying::{try_fillings, Effort};
use super::unification::unifiable;
use crate::matching::reading::Expr;
use crate::sheets::Operation;

/// For a refused pair of sides.
const USUAL: Effort = Effort { rounds: 1, values: 100, fillings: 1000 };
/// Where trying and unification have to agree.
pub(super) const GREAT: Effort = Effort { rounds: 2, values: 10_000, fillings: 1_000_000 };
/// Faults beyond these are counted alone.
const KEPT: usize = 20;

pub struct Trial {
    plan: Plan,
    pub differing: Tally,
    pub repeated: Tally,
    /// Pairs where trying and unification agree: how many, and how many can be made equal.
    pub agreeing: [u64; 2],
    pub faults: Vec<String>,
    pub faulty: u64,
}

impl Trial {
    pub fn new(plan: Plan) -> Self {
        let (differing, repeated) = (Tally::default(), Tally::default());
        Self { plan, differing, repeated, agreeing: [0; 2], faults: Vec::new(), faulty: 0 }
    }

    /// Asks of each item, then of the collection as a whole.
    pub fn question(&mut self, question: &Question) {
        question.items.iter().for_each(|item| self.pair(&question.of(item)));
        if question.items.len() > 1 || question.key.is_some() {
            self.collection(question);
        }
    }

    fn pair(&mut self, question: &Question) {
        let mut tables = question.tables();
        let answers = self.answers(question, &mut tables, &OPERATIONS);
        let (left, right) = tables.sides();
        let tally = self.tally(&[&left, &right]);
        tally.pairs += 1;
        tally.add(&answers);
        if answers.iter().any(|(.., number)| *number == 18) {
            let equal = unifiable(&left, &right);
            tally.incompatible[0] += 1;
            tally.incompatible[1] += u64::from(equal);
        }
        if let Some((operation, ..)) = answers.iter().find(|(.., number)| is_shape_refusal(*number))
        {
            self.refused(question, *operation, &left, &right);
        }
    }

    fn refused(&mut self, question: &Question, operation: Operation, left: &Expr, right: &Expr) {
        let equal = unifiable(left, right);
        let trying = try_fillings(left, right, &USUAL);
        let tally = self.tally(&[left, right]);
        tally.refused += 1;
        tally.tried += u64::from(trying.found.is_some());
        tally.fillings += trying.fillings;
        if equal || trying.found == Some(true) {
            let written = text(operation, &question.items[0], &question.pattern);
            tally.add_equal(question.items[0].size() + question.pattern.size(), written);
        }
        if trying.found == Some(true) && !equal {
            self.fault("made equal though not unifiable", question);
        }
    }

    /// Holds trying and unification against each other, whatever the planner answers.
    pub fn compare(&mut self, question: &Question) {
        let (left, right) = question.tables().sides();
        let equal = unifiable(&left, &right);
        if try_fillings(&left, &right, &GREAT).found == Some(equal) {
            self.agreeing[0] += 1;
            self.agreeing[1] += u64::from(equal);
        } else {
            self.fault("trying and unification differ", question);
        }
    }

    fn collection(&mut self, question: &Question) {
        let mut tables = question.tables();
        let answers = self.answers(question, &mut tables, &[Operation::SomeIn]);
        if answers.iter().any(|(.., number)| is_shape_refusal(*number)) {
            let sides = question.items.iter().map(|item| question.of(item).tables().sides());
            let sides: Vec<(Expr, Expr)> = sides.collect();
            let equal = sides.iter().any(|(item, pattern)| unifiable(item, pattern));
            let all: Vec<&Expr> =
                sides.iter().flat_map(|(item, pattern)| [item, pattern]).collect();
            let tally = self.tally(&all);
            tally.collections[0] += 1;
            tally.collections[1] += u64::from(equal);
        }
    }

    fn answers(
        &self,
        question: &Question,
        tables: &mut Tables,
        operations: &[Operation],
    ) -> Vec<Answer> {
        let of_scope = |scope| tables.answers(self.plan, scope, operations);
        question.scopes.iter().flat_map(of_scope).collect()
    }

    /// The tally of sides with these keys.
    fn tally(&mut self, sides: &[&Expr]) -> &mut Tally {
        if sides.iter().any(|side| has_repeats(side)) {
            &mut self.repeated
        } else {
            &mut self.differing
        }
    }

    fn fault(&mut self, what: &str, question: &Question) {
        self.faulty += 1;
        if self.faults.len() < KEPT {
            let written = text(Operation::Equals, &question.items[0], &question.pattern);
            self.faults.push(format!("{what}: {written}"));
        }
    }
}
