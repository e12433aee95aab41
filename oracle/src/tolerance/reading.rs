//! What document 02, slip 4, says of a run, read anew: the equalities of numbers that a match asks
//! for, and whether all, some or no choices meet them.

use super::case::{keys, kind, Measured};
use super::entry::{ALWAYS, NEVER, SOMETIMES};
use crate::matching::case::Case;
use crate::matching::expected::{alone, expected as expected_run, Expected as Run, Ran};
use crate::matching::reading::{expr, Expr};
use crate::matching::value::Literal;
use crate::sheets::draft::{COUNT, FIRST};
use std::collections::BTreeMap;

#[derive(Clone, Debug, PartialEq, Eq)]
pub enum Expected {
    /// A refusal: number, place and two counts.
    Refused([u32; 4]),
    Judged(Judged),
}

#[derive(Clone, Debug, PartialEq, Eq)]
pub struct Judged {
    pub number: u32,
    pub plan: Vec<u32>,
    pub values: Vec<u32>,
}

/// A run's refusals to 23, then 32, then 6.
pub fn expected(asked: &Measured) -> Expected {
    let run = expected_run(&asked.case);
    match run {
        Run::Refused(told) if told[0] != 6 => Expected::Refused(told),
        _ if !asked.has_ranges() => Expected::Refused(alone(32)),
        Run::Refused(told) => Expected::Refused(told),
        Run::Ran(ran) => Expected::Judged(judged(asked, ran)),
    }
}

fn judged(asked: &Measured, ran: Ran) -> Judged {
    let case = &asked.case;
    let mut meeting = Meeting { case, names: known(case), equalities: Vec::new() };
    let met = meeting.pattern(case.pattern(), case.value());
    let number = if !met || !some_choice(asked, &meeting.equalities) {
        NEVER
    } else if meeting.equalities.iter().all(|equality| equality.is_certain(asked)) {
        ALWAYS
    } else {
        SOMETIMES
    };
    let mut values = case.values.clone();
    for &name in ran.planned.iter().filter(|_| number == ALWAYS) {
        values[name as usize - 1] = meeting.names[&name];
    }
    Judged { number, plan: ran.plan, values }
}

fn known(case: &Case) -> BTreeMap<u32, u32> {
    let names = 1..=case.draft.names.len() as u32;
    let listed = names.filter(|&name| !case.is_unbound(name));
    let valued = listed.map(|name| (name, case.values[name as usize - 1]));
    valued.filter(|&(_, node)| node != 0).collect()
}

/// A number of a value that has to be a pattern's, or that of another node.
enum Equality {
    With(u32, i128),
    Of(u32, u32),
}

impl Equality {
    /// Whether it holds for all choices: a node is chosen once.
    fn is_certain(&self, asked: &Measured) -> bool {
        let range = |node: u32| asked.range(node).expect("it is measured");
        let only = |node: u32, number: i128| range(node) == (number, number);
        match *self {
            Self::With(node, number) => only(node, number),
            Self::Of(one, other) => {
                one == other || only(one, range(other).0) && only(other, range(one).0)
            }
        }
    }
}

/// Whether some choice meets all: each equality narrows the ranges of its nodes until none does.
fn some_choice(asked: &Measured, equalities: &[Equality]) -> bool {
    let mut left: BTreeMap<u32, (i128, i128)> = BTreeMap::new();
    let at = |left: &mut BTreeMap<u32, (i128, i128)>, node: u32| {
        *left.entry(node).or_insert_with(|| asked.range(node).expect("it is measured"))
    };
    loop {
        let before = left.clone();
        for equality in equalities {
            let (nodes, other) = match *equality {
                Equality::With(node, number) => ([node, node], (number, number)),
                Equality::Of(one, other) => ([one, other], at(&mut left, other)),
            };
            let one = at(&mut left, nodes[0]);
            let common = (one.0.max(other.0), one.1.min(other.1));
            left.extend(nodes.map(|node| (node, common)));
        }
        if left == before {
            return left.values().all(|(lowest, highest)| lowest <= highest);
        }
    }
}

/// Pattern and value, or two values, gone through together.
struct Meeting<'a> {
    case: &'a Case,
    names: BTreeMap<u32, u32>,
    equalities: Vec<Equality>,
}

impl Meeting<'_> {
    /// Whether a pattern can match a value, numbers aside; its fields are taken as written.
    fn pattern(&mut self, pattern: u32, value: u32) -> bool {
        match expr(self.case, pattern) {
            Expr::Underscore => true,
            Expr::Name(name) => match self.names.get(&name).copied() {
                Some(held) => self.values(held, value),
                None => self.names.insert(name, value).is_none(),
            },
            Expr::Literal(Literal::Number(number)) if self.is_number(value) => {
                self.equalities.push(Equality::With(value, number));
                true
            }
            _ => self.parts(pattern, value, Self::pattern),
        }
    }

    /// Whether two values can be equal, numbers aside.
    fn values(&mut self, one: u32, other: u32) -> bool {
        if self.is_number(one) && self.is_number(other) {
            self.equalities.push(Equality::Of(one, other));
            return true;
        }
        self.parts(one, other, Self::values)
    }

    fn is_number(&self, node: u32) -> bool {
        matches!(expr(self.case, node), Expr::Literal(Literal::Number(_)))
    }

    /// Literals are equal; arrays and objects have the length or the keys, and their parts meet.
    fn parts(&mut self, one: u32, other: u32, meet: fn(&mut Self, u32, u32) -> bool) -> bool {
        let literal = |node| match expr(self.case, node) {
            Expr::Literal(literal) => Some(literal),
            _ => None,
        };
        if let (Some(one), Some(other)) = (literal(one), literal(other)) {
            return one == other;
        }
        let words = |node: u32| self.case.draft.nodes[node as usize - 1];
        let (own, its) = (words(one), words(other));
        if kind(self.case, one) != kind(self.case, other) || own[COUNT] != its[COUNT] || own[0] < 7
        {
            return false;
        }
        let child = |first: u32, place: u32| self.case.draft.children[(first + place) as usize];
        if own[0] == 7 {
            let items = |place| (child(own[FIRST], place), child(its[FIRST], place));
            let pairs: Vec<(u32, u32)> = (0..own[COUNT]).map(items).collect();
            return pairs.into_iter().all(|(one, other)| meet(self, one, other));
        }
        let names =
            |node| keys(self.case, node).into_iter().map(|key| literal(key).expect("a literal"));
        let others: Vec<Literal> = names(other).collect();
        let partner = |(place, key): (usize, Literal)| {
            let found = others.iter().position(|other| *other == key)?;
            Some((child(own[FIRST], 2 * place as u32 + 1), child(its[FIRST], 2 * found as u32 + 1)))
        };
        let pairs: Option<Vec<(u32, u32)>> = names(one).enumerate().map(partner).collect();
        pairs.is_some_and(|pairs| pairs.into_iter().all(|(one, other)| meet(self, one, other)))
    }
}
