//! All fillings of a pattern that make it equal to a value, found by trying.

use super::reading::Expr;
use super::value::{equal, parts, Literal, Value};
use std::collections::BTreeMap;
use std::rc::Rc;

/// A pattern, and what is to be filled in: each unknown name, and each underscore by itself.
pub struct Blanks<'a> {
    pattern: &'a Expr,
    known: BTreeMap<u32, Rc<Value>>,
    pub unknown: Vec<u32>,
    underscores: usize,
}

/// The values of the unknown names, then those of the underscores as written.
pub type Filling = Vec<Rc<Value>>;

/// The names of a pattern as they are met, each as often as it is met, and the number of its
/// underscores.
pub fn names(pattern: &Expr) -> (Vec<u32>, usize) {
    let inner: Vec<&Expr> = match pattern {
        Expr::Name(name) => return (vec![*name], 0),
        Expr::Underscore => return (Vec::new(), 1),
        Expr::Array(items) => items.iter().collect(),
        Expr::Object(fields) => fields.iter().map(|(_, value)| value).collect(),
        _ => Vec::new(),
    };
    let parts = inner.into_iter().map(names);
    parts.fold((Vec::new(), 0), |(met, count), (more, also)| ([met, more].concat(), count + also))
}

impl<'a> Blanks<'a> {
    /// Names with a listed value are known.
    pub fn new(pattern: &'a Expr, known: BTreeMap<u32, Rc<Value>>) -> Self {
        let (mut unknown, underscores) = names(pattern);
        unknown.retain(|name| !known.contains_key(name));
        unknown.sort_unstable();
        unknown.dedup();
        Self { pattern, known, unknown, underscores }
    }

    /// What makes the two equal is at each place equal to a part of the value, so all parts are
    /// tried, and one value that is no part.
    pub fn fillings(&self, value: &Rc<Value>) -> Vec<Filling> {
        let mut candidates = parts(value);
        candidates.push(no_part());
        let found = self.instances(&candidates).filter(|(_, filled)| equal(filled, value));
        found.map(|(filling, _)| filling).collect()
    }

    /// All ways to fill from candidates, each with the filled pattern.
    pub fn instances<'b>(
        &'b self,
        candidates: &'b [Rc<Value>],
    ) -> impl Iterator<Item = (Filling, Rc<Value>)> + 'b {
        let next = |choice: &Vec<usize>| {
            let mut next = choice.clone();
            advance(&mut next, candidates.len()).then_some(next)
        };
        std::iter::successors(Some(vec![0; self.count()]), next).map(|choice| {
            let filling: Filling = choice.iter().map(|&place| candidates[place].clone()).collect();
            let filled = self.filled(&filling);
            (filling, filled)
        })
    }

    /// The number of places to fill.
    pub fn count(&self) -> usize {
        self.unknown.len() + self.underscores
    }

    fn filled(&self, filling: &Filling) -> Rc<Value> {
        let mut underscores = filling[self.unknown.len()..].iter();
        self.fill(self.pattern, filling, &mut underscores)
    }

    fn fill<'b>(
        &self,
        pattern: &Expr,
        filling: &Filling,
        underscores: &mut impl Iterator<Item = &'b Rc<Value>>,
    ) -> Rc<Value> {
        let value = match pattern {
            Expr::Literal(literal) => Value::Literal(literal.clone()),
            Expr::Name(name) => return self.of_name(*name, filling),
            Expr::Underscore => return underscores.next().expect("one for each").clone(),
            Expr::Array(items) => Value::Array(
                items.iter().map(|item| self.fill(item, filling, underscores)).collect(),
            ),
            Expr::Object(fields) => {
                let field = |(key, inner): &(Expr, Expr)| match key {
                    Expr::Literal(key) => (key.clone(), self.fill(inner, filling, underscores)),
                    _ => unreachable!("a simple pattern has literal keys"),
                };
                Value::Object(fields.iter().map(field).collect())
            }
            Expr::Other => unreachable!("a simple pattern has no such part"),
        };
        Rc::new(value)
    }

    fn of_name(&self, name: u32, filling: &Filling) -> Rc<Value> {
        let place = self.unknown.iter().position(|unknown| *unknown == name);
        place.map_or_else(|| self.known[&name].clone(), |place| filling[place].clone())
    }
}

/// A value that stands in no generated table.
pub fn no_part() -> Rc<Value> {
    Rc::new(Value::Literal(Literal::String(b"no part".to_vec())))
}

/// The next choice of digits below `base`, the first counting fastest; false after the last.
fn advance(choice: &mut [usize], base: usize) -> bool {
    for digit in choice {
        *digit += 1;
        if *digit < base {
            return true;
        }
        *digit = 0;
    }
    false
}

#[cfg(test)]
mod tests {
    use super::*;

    fn number(number: i128) -> Rc<Value> {
        Rc::new(Value::Literal(Literal::Number(number)))
    }

    fn array(items: &[i128]) -> Rc<Value> {
        Rc::new(Value::Array(items.iter().map(|&item| number(item)).collect()))
    }

    fn found(pattern: &[Expr], known: &[(u32, i128)], value: &[i128]) -> Vec<Filling> {
        let pattern = Expr::Array(pattern.to_vec());
        let known = known.iter().map(|&(name, value)| (name, number(value))).collect();
        Blanks::new(&pattern, known).fillings(&array(value))
    }

    #[test]
    fn every_choice_is_tried_once() {
        let mut choice = vec![0; 3];
        let mut tried = vec![choice.clone()];
        while advance(&mut choice, 4) {
            tried.push(choice.clone());
        }
        tried.sort_unstable();
        tried.dedup();
        assert_eq!(tried.len(), 64);
    }

    #[test]
    fn a_name_has_one_value_and_each_underscore_its_own() {
        let x = Expr::Name(1);
        assert!(found(&[x.clone(), x.clone()], &[], &[1, 2]).is_empty());
        // each of two equal parts is tried for the name
        assert_eq!(found(&[x.clone(), x], &[], &[1, 1]).len(), 2);
        let fillings = found(&[Expr::Underscore, Expr::Underscore], &[], &[1, 2]);
        assert!(fillings.len() == 1 && equal(&fillings[0][1], &number(2)));
    }

    #[test]
    fn a_known_name_keeps_its_value() {
        let pattern = [Expr::Name(1), Expr::Name(2)];
        assert!(found(&pattern, &[(1, 7)], &[1, 2]).is_empty());
        let fillings = found(&pattern, &[(1, 1)], &[1, 2]);
        assert!(fillings.len() == 1 && equal(&fillings[0][0], &number(2)));
    }
}
