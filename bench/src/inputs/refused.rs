//! Sheets of limit size that are refused, early and late.

use super::shapes::{array, assigned, equals, name, pattern};
use super::Input;
use oracle::sheets::{encode, limits, Draft, Operation, Rule, Tree};

fn input(name: &str, sheet: Vec<u8>) -> Input {
    Input::of_sheets(name, vec![sheet])
}

fn names() -> Draft {
    pattern(array(500, |place| name(place % 128)))
}

pub fn inputs() -> Vec<Input> {
    vec![
        input("7 at line 1", line_1()),
        input("1 at line 1", limits::nodes(513).bytes()),
        input("7 at line 3, the first node", first_node_unreadable()),
        input("7 in the last line, marks of 32", last_marks()),
        input("2 at the first node", broken_node(0)),
        input("2 at the last node", broken_node(500)),
        input("3 at the last node", limits::depth(33).bytes()),
        input("4 at the last name", equal_names()),
        input("5 after the table check", root_outside()),
        input("6 with 15,878 entries", limits::pairs(63, 250).bytes()),
        input("11 of 500 literals", assigned(array(500, |_| Tree::Null), Tree::Null).bytes()),
        input("13 in the last item", last_item()),
        input("14 by the last key", last_key()),
        input("17 at the last name", last_name(Operation::ColonEquals)),
        input("17 of a parameter, at the last name", last_name(Operation::Parameter)),
        input("18 in the last pair", last_pair().bytes()),
    ]
}

fn line_1() -> Vec<u8> {
    let mut sheet = names().bytes();
    sheet[0] = b'x';
    sheet
}

fn first_node_unreadable() -> Vec<u8> {
    let mut sheet = names().bytes();
    sheet[2 * 37] = b'x';
    sheet
}

fn last_marks() -> Vec<u8> {
    let mut draft = names();
    draft.names[127][2] = 32;
    draft.bytes()
}

fn broken_node(place: usize) -> Vec<u8> {
    let mut draft = names();
    draft.nodes[place][0] = 11;
    draft.bytes()
}

fn equal_names() -> Vec<u8> {
    let mut draft = names();
    draft.names[127] = draft.names[126];
    let node = &mut draft.nodes;
    node.retain(|node| node[0] != 6 || node[3] != 128);
    draft.nodes.truncate(1);
    draft.children.clear();
    draft.roots[0] = 1;
    draft.bytes()
}

fn root_outside() -> Vec<u8> {
    let mut draft = names();
    draft.roots[0] = 502;
    draft.bytes()
}

/// Arrays of arrays that agree up to the last.
fn last_item() -> Vec<u8> {
    let side = |last: usize, item: fn(usize) -> Tree| {
        array(80, move |place| {
            array(if place == 79 { last } else { 2 }, move |at| item(place * 2 + at))
        })
    };
    // Names end the check as unknown, so the left has wildcards in arrays alone.
    let left = |_| Tree::Array(Vec::new());
    let right = |_| Tree::Array(Vec::new());
    let mut left = side(2, left);
    if let Tree::Array(items) = &mut left {
        items.push(Tree::name("x"));
    }
    let mut right = side(1, right);
    if let Tree::Array(items) = &mut right {
        items.push(Tree::Null);
    }
    assigned(left, right).bytes()
}

/// Objects whose keys agree up to the last in order.
fn last_key() -> Vec<u8> {
    let key = |field: usize| Tree::String(format!("hinge position above floor {field:03}"));
    let left = (0..120).map(|field| (key(field), name(field)));
    let right = (0..120).map(|field| (key(if field == 119 { 120 } else { field }), Tree::Null));
    assigned(Tree::Object(left.collect()), Tree::Object(right.collect())).bytes()
}

fn last_name(operation: Operation) -> Vec<u8> {
    let rule = match operation {
        Operation::ColonEquals => Rule::two_sided(operation, array(128, name), Tree::Null),
        // A parameter's names are bound anew, but for those inside sets.
        _ => {
            let item = |place| if place < 127 { name(place) } else { Tree::Set(vec![name(place)]) };
            Rule { shadowing: true, ..Rule::new(operation, array(128, item)) }
        }
    };
    encode(&rule.with_marks("n127", 3)).bytes()
}

fn last_pair() -> Draft {
    let left = array(120, |place| if place == 119 { name(0) } else { Tree::name("_") });
    let right = array(120, |place| if place == 119 { name(1) } else { Tree::Null });
    equals(left, right)
}
