//! Sheets that break a rule: of the tables, or of the layout.

use super::random::Random;
use crate::sheets::draft::{Draft, COUNT, END, FIRST, KIND, START};

/// Breaks, mostly, one of the table rules.
pub fn break_tables(random: &mut Random, draft: &mut Draft) {
    match random.weighted(&[55, 25, 15, 5]) {
        0 => break_node(random, draft),
        1 => break_children(random, draft),
        2 => break_names(random, draft),
        _ => break_numbers(random, draft),
    }
}

fn break_node(random: &mut Random, draft: &mut Draft) {
    let place = random.below(draft.nodes.len());
    let text = draft.text.len() as u32;
    let end = pointed_into(draft, draft.nodes[place][KIND]);
    let node = &mut draft.nodes[place];
    match random.weighted(&[15, 10, 10, 20, 30, 15]) {
        0 => node[KIND] = random.below(12) as u32,
        1 => (node[START], node[END]) = (node[END], node[START]),
        2 => node[END] = text + random.below(3) as u32,
        3 => node[*random.pick(&[FIRST, COUNT])] += 1,
        4 => {
            let first = *random.pick(&[node[FIRST], end, end + 1, 0, 999_999]);
            let just = end.saturating_sub(first);
            node[FIRST] = first;
            node[COUNT] = *random.pick(&[node[COUNT], just, just + 1, just.div_ceil(2), 0]);
        }
        _ => node[*random.pick(&[START, END])] = random.below(text as usize + 2) as u32,
    }
}

/// The length of what a node of a kind points into.
fn pointed_into(draft: &Draft, kind: u32) -> u32 {
    let length = match kind {
        1 => draft.strings.len(),
        2 => draft.text.len(),
        3 => draft.numbers.len(),
        6 => draft.names.len(),
        7..=9 => draft.children.len(),
        _ => 1,
    };
    length as u32
}

fn break_children(random: &mut Random, draft: &mut Draft) {
    let nodes = draft.nodes.len() as u32;
    if draft.children.is_empty() {
        return draft.children.push(*random.pick(&[0, 1, nodes, nodes + 1]));
    }
    let place = random.below(draft.children.len());
    match random.weighted(&[40, 30, 15, 15]) {
        0 => draft.children[place] = *random.pick(&[0, 1, nodes, nodes + 1, 999_999]),
        1 => draft.children[place] = draft.children[random.below(draft.children.len())],
        2 => draft.children.push(draft.children[place]),
        _ => drop(draft.children.remove(place)),
    }
}

fn break_names(random: &mut Random, draft: &mut Draft) {
    let text = draft.text.len() as u32;
    if draft.names.is_empty() {
        return draft.names.push([text, 1, 0]);
    }
    let place = random.below(draft.names.len());
    match random.weighted(&[25, 25, 25, 25]) {
        0 => draft.names[place][1] = *random.pick(&[0, 255, 256, text + 1]),
        1 => draft.names[place][0] = random.below(text as usize + 2) as u32,
        2 => drop(draft.names.remove(place)),
        _ => draft.names[place][1] += 1,
    }
}

/// At the lower end, and below it as far as a column goes.
fn break_numbers(random: &mut Random, draft: &mut Draft) {
    let lowest = -(1 << 63);
    let number = *random.pick(&[lowest, lowest - 1, lowest - 1, -9_999_999_999_999_999_999]);
    if draft.numbers.is_empty() {
        return draft.numbers.push(number);
    }
    let place = random.below(draft.numbers.len());
    draft.numbers[place] = number;
}

/// Two names of equal bytes.
pub fn repeat_name(random: &mut Random, draft: &mut Draft) {
    if draft.names.is_empty() {
        draft.names.push([0, 1, 0]);
    }
    let [start, length, _] = *random.pick(&draft.names);
    draft.names.push([start, length, random.below(32) as u32]);
}

/// A root outside the nodes, be it one that the operation uses or not.
pub fn move_root(random: &mut Random, draft: &mut Draft) {
    let outside = [0, draft.nodes.len() as u32 + 1, 999_999];
    draft.roots[random.below(3)] = *random.pick(&outside);
}

/// At both ends and past them, and what only nearly is a number.
const ODD_NUMBERS: [&str; 18] = [
    "-0",
    "18446744073709551615",
    "18446744073709551616",
    "18446744073709551620",
    "99999999999999999999",
    "-9999999999999999999",
    "-9223372036854775807",
    "0",
    "1",
    "00",
    "-",
    "+1",
    "-01",
    "1 ",
    "9223372036854775808",
    "-9223372036854775809",
    "9223372036854775807",
    "-9223372036854775808",
];

/// A sheet with a word that is not listed, or just is, or with a number that nearly is one.
pub fn with_odd_words(random: &mut Random, mut draft: Draft) -> Vec<u8> {
    match random.below(5) {
        0 => draft.operation = *random.pick(&[0, 7, 8, 999_999]),
        1 => draft.scheduler = *random.pick(&[1, 2, 3]),
        2 => draft.scoping = *random.pick(&[0, 2, 4, 5, 6]),
        3 if !draft.names.is_empty() => {
            let place = random.below(draft.names.len());
            draft.names[place][2] = *random.pick(&[31, 32, 33, 64, 255]);
        }
        _ => {
            if draft.numbers.is_empty() {
                draft.numbers.push(0);
            }
            let after = 21 * random.below(draft.numbers.len()) + 19 * draft.names.len();
            let mut sheet = draft.bytes();
            let end = sheet.len() - draft.strings.len() - draft.text.len() - after - 1;
            let column = format!("{:>20}", random.pick(&ODD_NUMBERS));
            sheet[end - 20..end].copy_from_slice(column.as_bytes());
            return sheet;
        }
    }
    draft.bytes()
}

const ODD_BYTES: &[u8] = b" 0123456789-+\n\r\tx\0\x7f\xc3\xff";

/// Changes a byte or a few: mostly of the columns, for the bytes after them are free.
pub fn break_bytes(random: &mut Random, sheet: &mut Vec<u8>, free: usize) {
    let columns = sheet.len() - free;
    let end = if random.chance(90) { columns } else { sheet.len() };
    let place = random.below(end);
    match random.weighted(&[40, 10, 10, 10, 10, 20]) {
        0 => sheet[place] = *random.pick(ODD_BYTES),
        1 => drop(sheet.remove(place)),
        2 => sheet.insert(place, *random.pick(ODD_BYTES)),
        3 => sheet.truncate(place),
        4 => sheet.extend(&ODD_BYTES[..1 + random.below(3)]),
        _ => change_column(random, sheet, columns),
    }
}

/// One column anew, among them those that only nearly are numbers.
fn change_column(random: &mut Random, sheet: &mut [u8], columns: usize) {
    let new = random.pick(&[
        b"     0", b"    -0", b"    00", b"    01", b"    -1", b"      ", b"1     ", b"     7",
        b"   513", b"999999", b"    32", b"   1 2",
    ]);
    let lines: Vec<usize> = line_starts(&sheet[..columns]);
    let line = *random.pick(&lines);
    let length = sheet[line..columns].iter().take_while(|&&byte| byte != b'\n').count();
    let column = line + 6 * random.below((length / 6).max(1));
    if column + 6 <= columns {
        sheet[column..column + 6].copy_from_slice(*new);
    }
}

fn line_starts(bytes: &[u8]) -> Vec<usize> {
    let ends = bytes.iter().enumerate().filter(|(_, &byte)| byte == b'\n');
    std::iter::once(0)
        .chain(ends.map(|(end, _)| end + 1).filter(|&start| start < bytes.len()))
        .collect()
}
