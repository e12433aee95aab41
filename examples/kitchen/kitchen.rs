//! The kitchen of kitchen.c from Rust, with rustc alone: rustc -L PREFIX/lib kitchen.rs

const STRING: u32 = 1;
const NUMBER: u32 = 3;
const NAME: u32 = 6;
const ARRAY: u32 = 7;
const OBJECT: u32 = 9;
const NO_SCHEDULER: u32 = 0;
const RESPECT_PARENT: u32 = 1;
const MATCH: u32 = 0;
const NO_MATCH: u32 = 100;
const NODE_WORDS: usize = 5;
const ENTRY_WORDS: usize = 5;
const PLAN_ENTRIES: usize = 16;
const CABINETS: i64 = 300;

#[link(name = "teluddru", kind = "static")]
#[rustfmt::skip]
extern "C" {
    fn teluddru_run(
        nodes: *const u32, nodes_length: usize, children: *const u32, children_length: usize,
        numbers: *const u64, numbers_length: usize, names: *const u32, names_length: usize,
        strings: *const u8, strings_length: usize, text: *const u8, text_length: usize,
        marks: *const u8, marks_length: usize,
        scheduler: u32, scoping: u32, pattern: u32, value: u32, values: *mut u32, values_length: usize,
        plan: *mut u32, plan_length: usize, answer: *mut u32, answer_length: usize,
    ) -> u32;
    fn teluddru_first_miss(
        nodes: *const u32, nodes_length: usize, children: *const u32, children_length: usize,
        numbers: *const u64, numbers_length: usize, names: *const u32, names_length: usize,
        strings: *const u8, strings_length: usize, text: *const u8, text_length: usize,
        marks: *const u8, marks_length: usize,
        scheduler: u32, scoping: u32, pattern: u32, value: u32, values: *const u32, values_length: usize,
        answer: *mut u32, answer_length: usize,
    ) -> u32;
}

/// A call over tables and marks: the ranges that it begins with, then its other arguments.
macro_rules! call {
    ($call:ident, $tables:expr, $($more:expr),*) => {{
        let (t, marks) = ($tables, [0u8; NAMES.len()]);
        unsafe {
            $call(
                t.nodes.as_ptr(), t.nodes.len(), t.children.as_ptr(), t.children.len(),
                t.numbers.as_ptr(), t.numbers.len(), t.names.as_ptr(), t.names.len(),
                t.strings.as_ptr(), t.strings.len(), NAMES.as_ptr(), NAMES.len(),
                marks.as_ptr(), marks.len(), NO_SCHEDULER, RESPECT_PARENT, $($more),*
            )
        }
    }};
}

/// The rule's text: its names, of a letter each.
const NAMES: &str = "_w";

#[derive(Clone, Default)]
struct Tables {
    nodes: Vec<u32>,
    children: Vec<u32>,
    numbers: Vec<u64>,
    names: Vec<u32>,
    strings: Vec<u8>,
}

impl Tables {
    /// Puts a node: its kind, start and end in the text, first and count. Returns its number, from 1.
    fn put(&mut self, words: [u32; NODE_WORDS]) -> u32 {
        self.nodes.extend(words);
        (self.nodes.len() / NODE_WORDS) as u32
    }

    fn put_string(&mut self, text: &str) -> u32 {
        let place = self.strings.len() as u32;
        self.strings.extend(text.bytes());
        self.put([STRING, 0, 0, place, text.len() as u32])
    }

    fn put_int(&mut self, value: i64) -> u32 {
        let place = self.numbers.len() as u32 / 2;
        self.numbers.extend([(value < 0) as u64, value.unsigned_abs()]);
        self.put([NUMBER, 0, 0, place, 0])
    }

    fn put_name(&mut self, name: u32) -> u32 {
        self.put([NAME, name - 1, name, name, 0])
    }

    fn put_list(&mut self, kind: u32, items: &[u32]) -> u32 {
        let place = self.children.len() as u32;
        self.children.extend(items);
        let count = items.len() as u32 / if kind == OBJECT { 2 } else { 1 };
        self.put([kind, 0, 0, place, count])
    }

    fn put_side(&mut self, thickness: u32) -> u32 {
        let key = self.put_string("thickness");
        self.put_list(OBJECT, &[key, thickness])
    }

    /// `{"cabinet": .., "sides": [{"thickness": ..}, {"thickness": ..}]}`: of names the rule, of numbers a cabinet.
    fn put_cabinet(&mut self, number: u32, left: u32, right: u32) -> u32 {
        let sides = [self.put_side(left), self.put_side(right)];
        let sides = self.put_list(ARRAY, &sides);
        let keys = [self.put_string("cabinet"), self.put_string("sides")];
        self.put_list(OBJECT, &[keys[0], number, keys[1], sides])
    }

    fn node(&self, number: u32) -> &[u32] {
        &self.nodes[NODE_WORDS * (number as usize - 1)..][..NODE_WORDS]
    }

    /// The way to a node from the value that it is a part of.
    fn path(&self, node: u32) -> String {
        let Some(entry) = self.children.iter().position(|&child| child == node) else {
            return String::new();
        };
        let is_parent = |parent: &u32| {
            let [kind, _, _, first, count] = self.node(*parent)[..] else { unreachable!() };
            let entries = if kind == OBJECT { 2 * count } else { count };
            kind >= ARRAY && (first..first + entries).contains(&(entry as u32))
        };
        let parent = (node + 1..).find(is_parent).unwrap();
        let (above, first) = (self.path(parent), self.node(parent)[3] as usize);
        if self.node(parent)[0] == ARRAY {
            return format!("{above}[{}]", entry - first);
        }
        let key = self.node(self.children[first + (entry - first) / 2 * 2]);
        let text = &self.strings[key[3] as usize..][..key[4] as usize];
        format!("{above}{}{}", if above.is_empty() { "" } else { "." }, String::from_utf8_lossy(text))
    }
}

/// Puts a cabinet behind the rule, runs it, and says where it doesn't match.
fn matches(rule_alone: &Tables, rule: u32, number: i64) -> bool {
    let mut t = rule_alone.clone();
    let right = if number % 60 == 8 { 16 } else { 18 };
    let leaves = [number, 18, right].map(|value| t.put_int(value));
    let cabinet = t.put_cabinet(leaves[0], leaves[1], leaves[2]);
    let (mut values, mut answer) = ([0; NAMES.len()], [0; 4]);
    let mut plan = [0; PLAN_ENTRIES * ENTRY_WORDS];
    let told = call!(
        teluddru_run, &t, rule, cabinet, values.as_mut_ptr(), values.len(), plan.as_mut_ptr(), plan.len(),
        answer.as_mut_ptr(), answer.len()
    );
    assert!(told == MATCH || told == NO_MATCH, "cabinet {number} is refused with {told}");
    if told == NO_MATCH {
        call!(
            teluddru_first_miss, &t, rule, cabinet, values.as_ptr(), values.len(), answer.as_mut_ptr(), answer.len()
        );
        let asked = t.node(answer[2]);
        println!("cabinet {number}: {} is not {}", t.path(answer[1]), &NAMES[asked[1] as usize..asked[2] as usize]);
    }
    told == MATCH
}

fn main() {
    let mut t = Tables { names: vec![0, 1, 1, 1], ..Tables::default() };
    let names = [1, 2, 2].map(|name| t.put_name(name));
    let rule = t.put_cabinet(names[0], names[1], names[2]);
    let count = (1..=CABINETS).filter(|&number| matches(&t, rule, number)).count();
    println!("{count} of {CABINETS} cabinets match");
}
