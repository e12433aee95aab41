//! The same sheet in another layout: nodes, names and numbers renumbered, and unused entries.

use super::random::Random;
use crate::sheets::draft::{Draft, COUNT, END, FIRST, KIND, START};

/// Gives the new number of each node, with 0 for 0.
pub fn disguise(random: &mut Random, draft: &mut Draft) -> Vec<u32> {
    add_spares(random, draft);
    let numbers = renumber_nodes(random, draft);
    move_children(random, draft);
    renumber_names(random, draft);
    renumber_numbers(random, draft);
    move_bytes(random, draft);
    move_strings(random, draft);
    move_spans(random, draft);
    numbers
}

/// Nodes that no root reaches.
fn add_spares(random: &mut Random, draft: &mut Draft) {
    let end = draft.text.len() as u32;
    for _ in 0..random.weighted(&[50, 20, 20, 10]) {
        let kind = *random.pick(&[4, 5, 7, 8, 9, 10]);
        draft.nodes.push([kind, 0, end, 0, 0]);
    }
}

/// A random order in which children stand below their parents.
fn renumber_nodes(random: &mut Random, draft: &mut Draft) -> Vec<u32> {
    let mut order: Vec<u32> = Vec::new();
    let parents = parents(draft);
    let mut waits: Vec<usize> = draft.nodes.iter().map(Draft::width).collect();
    let mut ready: Vec<usize> = (0..waits.len()).filter(|&node| waits[node] == 0).collect();
    let mut numbers = vec![0; draft.nodes.len() + 1];
    while !ready.is_empty() {
        let node = ready.swap_remove(random.below(ready.len()));
        order.push(node as u32);
        numbers[node + 1] = order.len() as u32;
        if let Some(parent) = parents[node] {
            waits[parent] -= 1;
            ready.extend((waits[parent] == 0).then_some(parent));
        }
    }
    draft.nodes = order.iter().map(|&node| draft.nodes[node as usize]).collect();
    draft.children.iter_mut().for_each(|child| *child = numbers[*child as usize]);
    draft.roots = draft.roots.map(|root| numbers[root as usize]);
    numbers
}

/// The place of each node's parent.
fn parents(draft: &Draft) -> Vec<Option<usize>> {
    let mut parents = vec![None; draft.nodes.len()];
    for (parent, node) in draft.nodes.iter().enumerate() {
        let children = draft.children.iter().skip(node[FIRST] as usize).take(Draft::width(node));
        children.for_each(|&child| parents[child as usize - 1] = Some(parent));
    }
    parents
}

/// Puts the parts of the child list in another order, with nodes that have no parent between them.
fn move_children(random: &mut Random, draft: &mut Draft) {
    let parents = parents(draft);
    let mut orphans: Vec<u32> =
        (1..).zip(&parents).filter(|(_, p)| p.is_none()).map(|(n, _)| n).collect();
    random.shuffle(&mut orphans);
    let mut order: Vec<usize> = (0..draft.nodes.len()).collect();
    random.shuffle(&mut order);
    let old = std::mem::take(&mut draft.children);
    for place in order {
        if random.chance(5) {
            draft.children.extend(orphans.pop());
        }
        let width = Draft::width(&draft.nodes[place]);
        if width > 0 {
            let first = draft.nodes[place][FIRST] as usize;
            draft.nodes[place][FIRST] = draft.children.len() as u32;
            draft.children.extend(&old[first..first + width]);
        }
    }
    let entries = draft.children.len();
    let empty = |node: &&mut [u32; 5]| matches!(node[KIND], 7..=9) && Draft::width(node) == 0;
    draft.nodes.iter_mut().filter(empty).for_each(|node| {
        node[FIRST] = random.below(entries + 1) as u32;
    });
}

/// Another order of the names, each at any place that has its bytes.
fn renumber_names(random: &mut Random, draft: &mut Draft) {
    let mut order: Vec<usize> = (0..draft.names.len()).collect();
    random.shuffle(&mut order);
    let mut numbers = vec![0; order.len()];
    (1..).zip(&order).for_each(|(number, &old)| numbers[old] = number);
    draft.names = order.iter().map(|&old| draft.names[old]).collect();
    let named = draft.nodes.iter_mut().filter(|node| node[KIND] == 6);
    named.for_each(|node| node[FIRST] = numbers[node[FIRST] as usize - 1]);
    for name in &mut draft.names {
        name[0] = any_place(random, &draft.text, name[0], name[1]);
    }
}

/// Any place that has the bytes of a range.
fn any_place(random: &mut Random, store: &[u8], first: u32, count: u32) -> u32 {
    let (first, count) = (first as usize, count as usize);
    if count == 0 {
        return random.below(store.len() + 1) as u32;
    }
    let bytes = &store[first..first + count];
    let same = store.windows(count).enumerate().filter(|(_, part)| *part == bytes);
    let places: Vec<usize> = same.map(|(place, _)| place).collect();
    *random.pick(&places) as u32
}

/// Another order of the numbers, sometimes with an unused one, or with one for all that are equal.
fn renumber_numbers(random: &mut Random, draft: &mut Draft) {
    if random.chance(20) {
        draft.numbers.push(-7);
    }
    let mut order: Vec<usize> = (0..draft.numbers.len()).collect();
    random.shuffle(&mut order);
    let share = random.chance(30);
    let old = std::mem::take(&mut draft.numbers);
    draft.numbers = order.iter().map(|&place| old[place]).collect();
    for node in draft.nodes.iter_mut().filter(|node| node[KIND] == 3) {
        let own = node[FIRST] as usize;
        let is_it = |&place: &usize| place == own || share && old[place] == old[own];
        node[FIRST] = order.iter().position(is_it).expect("the number is there") as u32;
    }
}

/// Bytes that nothing uses, before and after.
fn move_bytes(random: &mut Random, draft: &mut Draft) {
    if random.chance(30) {
        draft.strings.splice(0..0, *b"ab");
        draft.nodes.iter_mut().filter(|node| node[KIND] == 1).for_each(|node| node[FIRST] += 2);
    }
    if random.chance(30) {
        draft.strings.extend(b"z");
    }
    if random.chance(30) {
        draft.text.splice(0..0, *b"x ");
        draft.names.iter_mut().for_each(|name| name[0] += 2);
        for node in &mut draft.nodes {
            node[START] += 2;
            node[END] += 2;
            node[FIRST] += if node[KIND] == 2 { 2 } else { 0 };
        }
    }
    if random.chance(30) {
        draft.text.extend(b"\ny");
    }
}

/// Strings at any place that has their bytes.
fn move_strings(random: &mut Random, draft: &mut Draft) {
    for node in draft.nodes.iter_mut().filter(|node| matches!(node[KIND], 1 | 2)) {
        let store = if node[KIND] == 1 { &draft.strings } else { &draft.text };
        node[FIRST] = any_place(random, store, node[FIRST], node[COUNT]);
    }
}

/// Only a name's span says something.
fn move_spans(random: &mut Random, draft: &mut Draft) {
    let end = draft.text.len();
    for node in draft.nodes.iter_mut().filter(|node| node[KIND] != 6) {
        if random.chance(10) {
            let start = random.below(end + 1);
            node[START] = start as u32;
            node[END] = (start + random.below(end + 1 - start)) as u32;
        }
    }
}
