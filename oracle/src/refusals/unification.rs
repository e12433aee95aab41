//! Whether some values make two sides equal, by first-order unification: it is right for all
//! values, however deep. The names of the two sides are apart, and each underscore is a name of its
//! own. Written from document 01's equality, and not from the planner's shape rules.

use crate::matching::reading::Expr;
use crate::matching::value::Literal;
use std::collections::{BTreeMap, BTreeSet};
use std::rc::Rc;

pub enum Term {
    Hole(usize),
    Literal(Literal),
    Array(Vec<Rc<Term>>),
    Object(BTreeMap<Literal, Rc<Term>>),
}

type Equation = (Rc<Term>, Rc<Term>);

/// Why no values make two sides equal.
#[derive(Clone, Copy, Debug, PartialEq, Eq, PartialOrd, Ord)]
pub enum Unequal {
    Shapes,
    /// A value would have to be a part of itself.
    HoldsItself,
}

/// A side, and the values of its known names by number.
pub struct Side<'a> {
    pub pattern: &'a Expr,
    pub known: BTreeMap<u32, Expr>,
}

impl<'a> Side<'a> {
    /// Without known names.
    pub fn of(pattern: &'a Expr) -> Self {
        Self { pattern, known: BTreeMap::new() }
    }
}

/// Two sides made equal: the left one, and what its holes are.
pub struct Unified {
    pub whole: Rc<Term>,
    unifier: Unifier,
}

impl Unified {
    /// The term itself, or what its hole is; a hole that nothing fixes stays.
    pub fn resolved(&self, term: &Rc<Term>) -> Rc<Term> {
        self.unifier.resolved(term.clone())
    }
}

/// Whether some fillings make `left` equal to `right`.
pub fn unifiable(left: &Expr, right: &Expr) -> bool {
    unified(&Side::of(left), &Side::of(right)).is_ok()
}

/// What makes `left` equal to `right`.
///
/// Where keys repeat, each field of the left has to equal the right's first value under its key: so
/// all left values under a key equal each other, and the right's later ones are free.
pub fn unified(left: &Side, right: &Side) -> Result<Unified, Unequal> {
    let mut one = Reader::of(left, 0);
    let whole = one.term(left.pattern);
    let mut other = Reader::of(right, one.holes);
    let right = other.term(right.pattern);
    let mut equations = one.repeats;
    equations.push((whole.clone(), right));
    let mut unifier = Unifier { bound: vec![None; other.holes], met: BTreeSet::new() };
    unifier.solve(equations)?;
    Ok(Unified { whole, unifier })
}

/// Reads a side, and gives a number to each name and to each underscore.
#[derive(Default)]
struct Reader {
    names: BTreeMap<u32, Rc<Term>>,
    holes: usize,
    /// The first value under a repeated key with each later one.
    repeats: Vec<Equation>,
}

impl Reader {
    /// A known name is its value; so many holes are taken.
    fn of(side: &Side, holes: usize) -> Self {
        let mut reader = Self { holes, ..Self::default() };
        for (name, value) in &side.known {
            let value = reader.term(value);
            reader.names.insert(*name, value);
        }
        reader
    }

    fn term(&mut self, expr: &Expr) -> Rc<Term> {
        let term = match expr {
            Expr::Literal(literal) => Term::Literal(literal.clone()),
            Expr::Name(name) => return self.name(*name),
            Expr::Underscore => self.hole(),
            Expr::Array(items) => Term::Array(items.iter().map(|item| self.term(item)).collect()),
            Expr::Object(fields) => Term::Object(self.fields(fields)),
            Expr::Other => unreachable!("a side has no such part"),
        };
        Rc::new(term)
    }

    fn name(&mut self, name: u32) -> Rc<Term> {
        let met = self.names.get(&name).cloned();
        let term = met.unwrap_or_else(|| Rc::new(self.hole()));
        self.names.insert(name, term.clone());
        term
    }

    fn hole(&mut self) -> Term {
        self.holes += 1;
        Term::Hole(self.holes - 1)
    }

    fn fields(&mut self, fields: &[(Expr, Expr)]) -> BTreeMap<Literal, Rc<Term>> {
        let mut firsts: BTreeMap<Literal, Rc<Term>> = BTreeMap::new();
        for (key, value) in fields {
            let Expr::Literal(key) = key else { unreachable!("a side has literal keys") };
            let value = self.term(value);
            match firsts.get(key) {
                Some(first) => self.repeats.push((first.clone(), value)),
                None => drop(firsts.insert(key.clone(), value)),
            }
        }
        firsts
    }
}

struct Unifier {
    bound: Vec<Option<Rc<Term>>>,
    /// Pairs whose parts are equations already, so that shared parts are gone into once.
    met: BTreeSet<(*const Term, *const Term)>,
}

impl Unifier {
    fn solve(&mut self, mut equations: Vec<Equation>) -> Result<(), Unequal> {
        while let Some((one, other)) = equations.pop() {
            let (one, other) = (self.resolved(one), self.resolved(other));
            if !self.met.insert((Rc::as_ptr(&one), Rc::as_ptr(&other))) {
                continue;
            }
            match (&*one, &*other) {
                (Term::Hole(one), Term::Hole(other)) if one == other => {}
                (Term::Hole(hole), _) => self.bind(*hole, other)?,
                (_, Term::Hole(hole)) => self.bind(*hole, one)?,
                (Term::Literal(one), Term::Literal(other)) if one == other => {}
                (Term::Array(ones), Term::Array(others)) if ones.len() == others.len() => {
                    equations.extend(ones.iter().cloned().zip(others.iter().cloned()));
                }
                (Term::Object(ones), Term::Object(others)) if ones.keys().eq(others.keys()) => {
                    equations.extend(ones.values().cloned().zip(others.values().cloned()));
                }
                _ => return Err(Unequal::Shapes),
            }
        }
        Ok(())
    }

    fn bind(&mut self, hole: usize, term: Rc<Term>) -> Result<(), Unequal> {
        if self.occurs(hole, &term, &mut BTreeSet::new()) {
            return Err(Unequal::HoldsItself);
        }
        self.bound[hole] = Some(term);
        Ok(())
    }

    /// The term itself, or what its hole is bound to.
    fn resolved(&self, term: Rc<Term>) -> Rc<Term> {
        match &*term {
            Term::Hole(hole) => match &self.bound[*hole] {
                Some(bound) => self.resolved(bound.clone()),
                None => term,
            },
            _ => term,
        }
    }

    /// Whether a hole stands in a term; holes that were passed before are not gone into again.
    fn occurs(&self, hole: usize, term: &Term, passed: &mut BTreeSet<usize>) -> bool {
        match term {
            Term::Hole(own) if *own == hole => true,
            Term::Hole(own) => {
                let bound = self.bound[*own].as_ref().filter(|_| passed.insert(*own));
                bound.is_some_and(|bound| self.occurs(hole, bound, passed))
            }
            Term::Literal(_) => false,
            Term::Array(items) => items.iter().any(|item| self.occurs(hole, item, passed)),
            Term::Object(fields) => fields.values().any(|value| self.occurs(hole, value, passed)),
        }
    }
}
