//! What document 02, slip 14, says of a rule body.

use super::case::{Case, LINE_WORDS, MARKS};
use super::plan::{plan, Line, Plan};
use super::reading::{has_underscore, names_in, Met};
use super::sides::{bound, sides, Side};
use super::tally::{self, Class};
use crate::answer::Entry;
use crate::matching::case::is_unbound;

#[derive(Debug)]
pub struct Expected {
    /// The four numbers of the line that decided, then that line, from 1, or 0.
    pub told: [u32; 5],
    /// The words of the last line's plan; none of a refused body.
    pub plan: Vec<u32>,
    /// The marks afterwards.
    pub marks: Vec<u8>,
    /// What was met on the way.
    pub classes: Vec<Class>,
}

pub fn expected(case: &Case) -> Expected {
    let mut body = Body { case, marks: scope(&case.marks), bound: Vec::new(), classes: Vec::new() };
    let (told, plan, marks) = match body.plan() {
        Ok(last) => {
            let count = last.entries.len() as u32;
            let words = last.entries.iter().flat_map(Entry::words).collect();
            ([0, last.form, last.side, count, 0], words, after(&case.marks, &body.marks))
        }
        Err(told) => (told, Vec::new(), case.marks.clone()),
    };
    let classes = body.classes;
    Expected { told, plan, marks, classes }
}

/// The marks that count; a name past those lent has none.
fn scope(lent: &[u8]) -> [u8; MARKS] {
    let mut marks = [0; MARKS];
    marks.iter_mut().zip(lent).for_each(|(mark, lent)| *mark = *lent);
    marks
}

/// The scope's marks in the lent ones, as far as there is space.
fn after(lent: &[u8], scope: &[u8; MARKS]) -> Vec<u8> {
    let past = lent.iter().skip(MARKS);
    scope.iter().take(lent.len()).chain(past).copied().collect()
}

struct Body<'a> {
    case: &'a Case,
    /// The scope as it is before the next line.
    marks: [u8; MARKS],
    /// The names that earlier lines bind.
    bound: Vec<u32>,
    classes: Vec<Class>,
}

/// A refusal's four numbers and its line.
type Told = [u32; 5];

impl Body<'_> {
    /// The last line's plan; the scope is then that after it.
    fn plan(&mut self) -> Result<Plan, Told> {
        if self.case.scheduler > 1 {
            self.classes.push(tally::unread("7"));
            return Err([7, 0, 0, 0, 0]);
        }
        let lines = lines(&self.case.lines).map_err(|why| {
            self.classes.push(tally::unread(why));
            [37, 0, 0, 0, 0]
        })?;
        let mut last = None;
        for (number, line) in (1..).zip(&lines) {
            last = Some(self.line(number, *line)?);
        }
        Ok(last.expect("a body has a line"))
    }

    fn line(&mut self, number: u32, line: Line) -> Result<Plan, Told> {
        let own = |[refusal, place, one, other]: [u32; 4]| [refusal, place, one, other, number];
        let planned = plan(self.case, &self.marks, line).map_err(|refusal| {
            let above_31 = self.marks.iter().any(|&marks| marks > 31);
            self.classes.push(tally::refused(refusal[0], above_31, number));
            own(refusal)
        })?;
        for side in sides(self.case, line, &planned) {
            self.search(number, &planned, &side)?;
        }
        self.classes.push(tally::planned(line, &planned, number));
        for name in bound(self.case, &planned) {
            let marks = &mut self.marks[name as usize - 1];
            *marks = (*marks | 1 | 2) & !(4 | 8);
            self.bound.push(name);
        }
        Ok(planned)
    }

    /// Refuses the first name of a side that is not ready.
    fn search(&mut self, number: u32, plan: &Plan, side: &Side) -> Result<(), Told> {
        for met in names_in(self.case, side.node) {
            if !self.is_known(met.name) && !side.earlier.contains(&met.name) {
                let own = bound(self.case, plan).contains(&met.name);
                self.classes.extend(tally::not_ready(number, side, &met, own));
                return Err([38, met.node, 0, 0, number]);
            }
            self.note(number, side, &met);
        }
        if has_underscore(self.case, side.node) {
            self.classes.push(tally::passed_over(number));
        }
        Ok(())
    }

    /// Under RespectParent.
    fn is_known(&self, name: u32) -> bool {
        let marks = self.marks[name as usize - 1];
        !is_unbound(marks.into(), self.case.scheduler == 1, false)
    }

    fn note(&mut self, number: u32, side: &Side, met: &Met) {
        let why = if self.bound.contains(&met.name) {
            "bound by an earlier line"
        } else if self.is_known(met.name) {
            "known at the start"
        } else {
            "bound by an earlier pair"
        };
        self.classes.extend(tally::ready(number, side, met, why));
    }
}

/// 1 to 64 lines of four words, operations 2 to 5; or why the words are no such body.
fn lines(words: &[u32]) -> Result<Vec<Line>, &'static str> {
    if !words.len().is_multiple_of(LINE_WORDS) {
        return Err("37, length");
    }
    let lines: Vec<Line> = words
        .chunks(LINE_WORDS)
        .map(|line| Line { operation: line[0], first: line[1], second: line[2], key: line[3] })
        .collect();
    match lines.len() {
        0 => Err("37, no line"),
        1..=64 if lines.iter().any(|line| line.operation < 2) => Err("37, operation below 2"),
        1..=64 if lines.iter().any(|line| line.operation > 5) => Err("37, operation above 5"),
        1..=64 => Ok(lines),
        _ => Err("37, above 64 lines"),
    }
}
