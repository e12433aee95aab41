//! Sheets at the sizes at which our arrays change, refused as early and as late as can be, and
//! sheets whose names, keys or pairs are slow to tell apart.

use super::shapes::{array, assigned, equals, repeated_object};
use super::Input;
use oracle::sheets::{limits, Draft, Tree};

/// Beside the sizes of our arrays, and the limits.
const SIZES: [usize; 15] = [1, 2, 3, 8, 9, 16, 17, 32, 33, 64, 65, 128, 129, 256, 512];
const NULL: [u32; 5] = [5, 0, 0, 0, 0];

pub fn inputs() -> Vec<Input> {
    let mut inputs = Vec::new();
    for table in TABLES {
        for size in SIZES.into_iter().filter(|&size| size <= table.limit) {
            inputs.extend(of_table(&table, size));
        }
    }
    for size in SIZES {
        inputs.extend((1..=6).map(|operation| of_operation(operation, size)));
    }
    inputs.push(input("no nodes", draft(0, 0, 0, 0).bytes()));
    inputs.extend(slow());
    inputs
}

fn input(name: &str, sheet: Vec<u8>) -> Input {
    Input::of_sheets(name, vec![sheet])
}

/// A pattern that is node 1, in tables of such sizes.
fn draft(nodes: usize, children: usize, numbers: usize, names: usize) -> Draft {
    let text: Vec<u8> = (0..names).flat_map(|name| format!("{name:03}").into_bytes()).collect();
    Draft {
        operation: 1,
        scoping: 1,
        roots: [1, 0, 0],
        nodes: vec![NULL; nodes],
        children: (1..=children as u32).collect(),
        numbers: vec![7; numbers],
        names: (0..names as u32).map(|name| [name * 3, 3, 0]).collect(),
        text,
        ..Draft::default()
    }
}

struct Table {
    name: &'static str,
    limit: usize,
    /// Its place in a sheet in which the tables before it are empty, but for one node.
    place: usize,
    /// The bytes of a line.
    line: usize,
    draft: fn(usize) -> Draft,
}

const AFTER_A_NODE: usize = 2 * 37 + 31;
const TABLES: [Table; 4] = [
    Table { name: "nodes", limit: 512, place: 74, line: 31, draft: |size| draft(size, 0, 0, 0) },
    Table {
        name: "child entries",
        limit: 512,
        place: AFTER_A_NODE,
        line: 7,
        draft: |size| draft(1, size, 0, 0),
    },
    Table {
        name: "numbers",
        limit: 256,
        place: AFTER_A_NODE,
        line: 21,
        draft: |size| draft(1, 0, size, 0),
    },
    Table {
        name: "names",
        limit: 128,
        place: AFTER_A_NODE,
        line: 19,
        draft: |size| draft(1, 0, 0, size),
    },
];

/// Planned, refused in the first and in the last line, by the first node, and by the root.
fn of_table(table: &Table, size: usize) -> Vec<Input> {
    let sound = (table.draft)(size);
    let unreadable = |line: usize| {
        let mut sheet = sound.bytes();
        sheet[table.place + line * table.line] = b'x';
        sheet
    };
    let mut broken = sound.clone();
    broken.nodes[0][0] = 0;
    let mut outside = sound.clone();
    outside.roots[0] = 0;
    let named = |what: &str, sheet| input(&format!("{size} {}, {what}", table.name), sheet);
    vec![
        named("as they are", sound.bytes()),
        named("the first line unreadable", unreadable(0)),
        named("the last line unreadable", unreadable(size - 1)),
        named("the first node broken", broken.bytes()),
        named("the root outside", outside.bytes()),
    ]
}

fn of_operation(operation: u32, size: usize) -> Input {
    let draft = Draft { operation, roots: [1, size as u32, 0], ..draft(size, 0, 0, 0) };
    input(&format!("operation {operation} of {size} nodes"), draft.bytes())
}

/// Names and keys that share long beginnings or say long numbers, and pairs in large plans.
fn slow() -> Vec<Input> {
    let mut inputs = Vec::new();
    for size in [3, 10, 40, 126] {
        let key =
            |field: usize| Tree::Number(i128::from(i64::MIN) + 1 + (field * 101 % size) as i128);
        let object = |value: &dyn Fn(usize) -> Tree| {
            Tree::Object((0..size).map(|field| (key(field), value(field))).collect())
        };
        let [left, right] = [object(&|_| Tree::name("_")), object(&|_| Tree::Null)];
        let both = (left.clone(), right.clone());
        inputs.push(input(&format!("`=` of {size} long numbers"), equals(left, right).bytes()));
        inputs
            .push(input(&format!("`:=` of {size} long numbers"), assigned(both.0, both.1).bytes()));
        let name = |place| Tree::Name(format!("{:_<100}{:03}", "height_above_floor", 999 - place));
        let names = super::shapes::pattern(array(size, name));
        inputs.push(input(&format!("{size} long names, the last first"), names.bytes()));
    }
    for size in [8, 32, 128] {
        // Parts of one text: all of the greatest length, or each the beginning of the next.
        let letters = (0..382u32).map(|place| b'a' + (place * place % 23) as u8).collect();
        let parts = (0..size).map(|name| [name, 255, 0]).collect();
        let named = Draft { names: parts, text: letters, ..draft(1, 0, 0, 0) };
        inputs.push(input(&format!("{size} names of 255 bytes"), named.bytes()));
        let beginnings = (0..size).map(|name| [0, 128 + name, 0]).collect();
        let named = Draft { names: beginnings, text: vec![b'a'; 255], ..draft(1, 0, 0, 0) };
        inputs.push(input(&format!("{size} names that begin one another"), named.bytes()));
    }
    let pairs = [(4, 2), (12, 5), (21, 6), (24, 8), (30, 7), (31, 19), (49, 15), (60, 11), (84, 8)];
    for (wildcards, times) in pairs {
        let name = format!("an array of {wildcards} paired {times} times");
        inputs.push(input(&name, limits::pairs(times, wildcards).bytes()));
    }
    for (fields, times) in [(9, 4), (15, 7), (17, 8)] {
        let name = format!("an object of {fields} paired {times} times");
        inputs.push(input(&name, repeated_object(times, fields).bytes()));
    }
    inputs
}
