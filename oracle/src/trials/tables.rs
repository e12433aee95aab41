//! Each rule of document 01, "Tables", broken alone, and what only just holds.

use super::{trial, Trial};
use crate::sheets::draft::{Draft, COUNT, END, FIRST, KIND, START};
use crate::sheets::{encode, rule};

/// One node of each kind. The set's entry is the first, the object's two come next.
const ALL_KINDS: &str = r#"pattern [x, "s", `r`, 7, true, null, f(), {x}, {1: y}]"#;
const PLAN: &str = "0 0 0 11, 5 13 9 0 0, 1 1 0 0 1, 4 2 0 0 2, 4 3 0 0 3, 4 4 0 0 4, 4 5 0 0 5, \
                    4 6 0 0 6, 3 7 0 0 7, 3 9 0 0 8, 6 12 1 0 9, 1 11 0 10 1";
const BROKEN: &str = "2 0 0 0";

/// Places of nodes in `ALL_KINDS`, one below their numbers.
const NAME: usize = 0;
const STRING: usize = 1;
const RAW_STRING: usize = 2;
const NUMBER: usize = 3;
const BOOL: usize = 4;
const NULL: usize = 5;
const OTHER: usize = 6;
const SET: usize = 8;
const OBJECT: usize = 11;
const ARRAY: usize = 12;

const TEXT: u32 = 46;
const ENTRIES: u32 = 12;
const NODES: u32 = 13;

/// Name, node, and the words that it gets.
type Words = (&'static str, usize, &'static [(usize, u32)]);

#[rustfmt::skip]
const BREAKS: &[Words] = &[
    ("kind 0", NULL, &[(KIND, 0)]),
    ("kind 11", NULL, &[(KIND, 11)]),
    ("start above end", NULL, &[(START, 2), (END, 1)]),
    ("end past the text", NULL, &[(END, TEXT + 1)]),
    ("string past its store", STRING, &[(COUNT, 2)]),
    ("empty string past its store", STRING, &[(FIRST, 2), (COUNT, 0)]),
    ("raw string past the text", RAW_STRING, &[(FIRST, TEXT)]),
    ("empty raw string past the text", RAW_STRING, &[(FIRST, TEXT + 1), (COUNT, 0)]),
    ("number past the list", NUMBER, &[(FIRST, 2)]),
    ("number with a count", NUMBER, &[(COUNT, 1)]),
    ("bool 2", BOOL, &[(FIRST, 2)]),
    ("bool with a count", BOOL, &[(COUNT, 1)]),
    ("null with a first", NULL, &[(FIRST, 1)]),
    ("null with a count", NULL, &[(COUNT, 1)]),
    ("other with a first", OTHER, &[(FIRST, 1)]),
    ("other with a count", OTHER, &[(COUNT, 1)]),
    ("name 0", NAME, &[(FIRST, 0)]),
    ("name past the names", NAME, &[(FIRST, 3)]),
    ("name with a count", NAME, &[(COUNT, 1)]),
    ("name with another's text", NAME, &[(FIRST, 2)]),
    ("name with a longer text", NAME, &[(END, 3)]),
    ("set past the child list", SET, &[(FIRST, ENTRIES)]),
    ("empty set past the child list", SET, &[(FIRST, ENTRIES + 1), (COUNT, 0)]),
    ("object past the child list", OBJECT, &[(FIRST, ENTRIES - 1)]),
    ("array past the child list", ARRAY, &[(FIRST, 4)]),
];

#[rustfmt::skip]
const HOLDS: &[Words] = &[
    ("empty span at the end of the text", NULL, &[(START, TEXT), (END, TEXT)]),
    ("empty string at the end of its store", STRING, &[(FIRST, 1), (COUNT, 0)]),
    ("empty raw string at the end of the text", RAW_STRING, &[(FIRST, TEXT), (COUNT, 0)]),
    ("empty set at the end of the child list", SET, &[(FIRST, ENTRIES), (COUNT, 0)]),
    ("name at another place of its bytes", NAME, &[(START, 35), (END, 36)]),
];

pub fn trials() -> Vec<Trial> {
    let breaks = BREAKS.iter().map(|words| with_words(words, BROKEN));
    let holds = HOLDS.iter().map(|words| with_words(words, PLAN));
    breaks.chain(holds).chain(children()).chain(names()).chain(order()).collect()
}

fn all_kinds() -> Draft {
    encode(&rule(ALL_KINDS))
}

fn with_words(&(name, node, words): &Words, expected: &str) -> Trial {
    let mut draft = all_kinds();
    words.iter().for_each(|&(word, value)| draft.nodes[node][word] = value);
    trial(name, &draft, expected)
}

fn with(name: &str, text: &str, change: impl Fn(&mut Draft), expected: &str) -> Trial {
    let mut draft = encode(&rule(text));
    change(&mut draft);
    trial(name, &draft, expected)
}

/// In `[[1], [2]]` the arrays inside are nodes 2 and 4 and the child list is 1, 3, 2, 4.
fn children() -> [Trial; 9] {
    let entry = |entry: u32| move |draft: &mut Draft| draft.children.push(entry);
    let nested = "pattern [[1], [2]]";
    [
        with("unused entry 0", ALL_KINDS, entry(0), BROKEN),
        with("unused entry past the nodes", ALL_KINDS, entry(NODES + 1), BROKEN),
        with("unused entry of a node with a parent", ALL_KINDS, entry(1), BROKEN),
        with("unused entry of the root", ALL_KINDS, entry(NODES), PLAN),
        with("used entry 0", ALL_KINDS, |draft| draft.children[0] = 0, BROKEN),
        with("a node twice", ALL_KINDS, |draft| draft.children[0] = 1, BROKEN),
        with("an entry for two nodes", nested, |draft| draft.nodes[3][FIRST] = 0, BROKEN),
        with("a child that is its parent", "pattern [x]", |draft| draft.children[0] = 2, BROKEN),
        with("a child above its parent", nested, |draft| draft.children[0] = 5, BROKEN),
    ]
}

fn names() -> [Trial; 5] {
    let name =
        |start: u32, length: u32| move |draft: &mut Draft| draft.names.push([start, length, 0]);
    [
        with("a name of no bytes", ALL_KINDS, name(0, 0), BROKEN),
        with("a name past the text", ALL_KINDS, name(TEXT, 1), BROKEN),
        with("a name at the end of the text", ALL_KINDS, name(TEXT - 1, 1), PLAN),
        with("two names of equal bytes", ALL_KINDS, name(1, 1), "4 0 0 0"),
        with("a name that is the start of another", "pattern xy", name(0, 1), "0 0 0 1, 1 1 0 0 0"),
    ]
}

/// What comes first where two things are wrong.
fn order() -> [Trial; 4] {
    let deep = format!("pattern {}x{}", "[".repeat(32), "]".repeat(32));
    let name = |draft: &mut Draft| draft.names.push([32, 1, 0]);
    [
        with("2 before 3", &deep, |draft| draft.nodes[0][COUNT] = 1, BROKEN),
        with("3 before 4", &deep, name, "3 0 0 0"),
        with(
            "4 before 5",
            ALL_KINDS,
            |draft| {
                draft.names.push([1, 1, 0]);
                draft.roots[0] = NODES + 1;
            },
            "4 0 0 0",
        ),
        with("root past the nodes", ALL_KINDS, |draft| draft.roots[0] = NODES + 1, "5 0 0 0"),
    ]
}
