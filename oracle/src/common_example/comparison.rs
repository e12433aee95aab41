//! Holds the common example against the second reading, runs both patterns on it, and counts.

use super::case::Pair;
use super::entry::Call;
use super::reading::{expected, Expected};
use super::tally::Tally;
use super::writing::Written;
use crate::matching::case::Case;
use crate::matching::comparison::{with_guard, GUARD, UNWRITTEN};
use crate::matching::entry::{Run, MATCH};
use std::fmt;

/// Differences beyond these are counted alone.
const KEPT: usize = 20;
/// Of nodes, and of child entries.
const LIMIT: usize = 512;

pub struct Comparison {
    subject: Call,
    run: Run,
    pub tally: Tally,
    pub cases: u64,
    pub runs: u64,
    pub differing: u64,
    pub differences: Vec<Difference>,
}

pub struct Difference {
    number: u64,
    what: &'static str,
    pair: Pair,
    expected: Expected,
    actual: Outcome,
}

/// The result, and the value's nodes, its child entries and the answer with words behind them that
/// are not the subject's.
#[derive(Debug, PartialEq, Eq)]
struct Outcome {
    number: u32,
    nodes: Vec<u32>,
    children: Vec<u32>,
    answer: Vec<u32>,
}

impl Comparison {
    pub fn new(subject: Call, run: Run) -> Self {
        let tally = Tally::default();
        Self { subject, run, tally, cases: 0, runs: 0, differing: 0, differences: Vec::new() }
    }

    pub fn case(&mut self, pair: Pair) {
        let expected = expected(&pair);
        let runs = runs(&pair, &expected);
        self.tally.add(&pair, &expected, runs.is_some());
        self.runs += if runs.is_some() { 2 } else { 0 };
        let mut lent = pair.clone();
        let actual = actual(self.subject, &mut lent);
        let what = if actual != outcome(&pair, &expected) {
            Some("the second reading")
        } else if lent != pair {
            Some("what was lent to be read")
        } else if runs.is_some_and(|runs| !runs.iter().all(|case| matches(self.run, case))) {
            Some("a run on the value")
        } else {
            None
        };
        if let Some(what) = what {
            self.differing += 1;
            if self.differences.len() < KEPT {
                let number = self.cases;
                self.differences.push(Difference { number, what, pair, expected, actual });
            }
        }
        self.cases += 1;
    }
}

/// The runs on the value, where tables and value together are within the limits.
fn runs(pair: &Pair, expected: &Expected) -> Option<[Case; 2]> {
    let Expected::Found(value, _) = expected else { return None };
    let draft = &pair.sides[0].draft;
    let Written { nodes, children } = value;
    let together = [draft.nodes.len() + nodes.len(), draft.children.len() + children.len()];
    together.iter().all(|&count| count <= LIMIT).then(|| pair.runs_on(value))
}

fn matches(run: Run, case: &Case) -> bool {
    let mut plan = vec![UNWRITTEN; case.room];
    run(case, &mut case.values.clone(), &mut plan, &mut []) == MATCH
}

fn outcome(pair: &Pair, expected: &Expected) -> Outcome {
    let told = expected.told(pair);
    let (nodes, children) = match expected {
        Expected::Found(value, _) => (value.nodes.concat(), value.children.clone()),
        _ => (Vec::new(), Vec::new()),
    };
    let mut answer = vec![UNWRITTEN; pair.answer_room + GUARD];
    let written = pair.answer_room.min(told.len());
    answer[..written].copy_from_slice(&told[..written]);
    Outcome {
        number: told[0],
        nodes: with_zeros(nodes, pair.node_room),
        children: with_zeros(children, pair.child_room),
        answer,
    }
}

/// The words, zeros to the list's end, and the guard.
fn with_zeros(mut words: Vec<u32>, room: usize) -> Vec<u32> {
    words.resize(room, 0);
    with_guard(&words)
}

fn actual(subject: Call, pair: &mut Pair) -> Outcome {
    let Pair { node_room, child_room, answer_room, .. } = *pair;
    let [mut nodes, mut children, mut answer] =
        [node_room, child_room, answer_room].map(|room| vec![UNWRITTEN; room + GUARD]);
    let number = subject(
        pair,
        &mut nodes[..node_room],
        &mut children[..child_room],
        &mut answer[..answer_room],
    );
    Outcome { number, nodes, children, answer }
}

impl fmt::Display for Difference {
    fn fmt(&self, f: &mut fmt::Formatter<'_>) -> fmt::Result {
        let Self { number, what, pair, expected, actual } = self;
        let draft = &pair.sides[0].draft;
        writeln!(f, "case {number}: {what} differs")?;
        writeln!(f, "  {}", String::from_utf8_lossy(&draft.text))?;
        writeln!(f, "  nodes {:?}, children {:?}", draft.nodes, draft.children)?;
        for case in &pair.sides {
            let Case { marks, scheduler, scoping, values, .. } = case;
            write!(f, "  pattern {}, marks {marks:?}, scheduler {scheduler}", case.pattern())?;
            writeln!(f, ", scoping {scoping}, list {values:?}")?;
        }
        writeln!(f, "  lent {} and {} words", pair.node_room, pair.child_room)?;
        writeln!(f, "  expected {expected:?}")?;
        write!(f, "  answered {actual:?}")
    }
}
