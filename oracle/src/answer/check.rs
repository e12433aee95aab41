//! The table check, refusals 2 to 4. Written from document 01, "Tables", and not from the crates.
//! Refusal 1 is given by line 1 of the sheet.

use super::listing::Refusal;
use super::tables::{kind, Name, Node, Number, Tables};
use std::collections::BTreeSet;

/// Of nodes, and of child entries.
const MAX_NODES: usize = 512;
const MAX_NAME_LENGTH: u32 = 255;
const MAX_DEPTH: u32 = 32;

pub fn check(tables: &Tables) -> Result<(), Refusal> {
    if !keeps_the_rules(tables) {
        Err(Refusal::new(2))
    } else if deepest(tables) > MAX_DEPTH {
        Err(Refusal::new(3))
    } else if !names_differ(tables) {
        Err(Refusal::new(4))
    } else {
        Ok(())
    }
}

fn keeps_the_rules(tables: &Tables) -> bool {
    tables.names.iter().all(|name| name_holds(tables, name))
        && tables.numbers.iter().all(number_holds)
        && tables.children.iter().all(|&child| is_node(tables, child))
        && all_differ(tables.children.iter().copied())
        && tables.nodes.iter().all(|node| words_hold(tables, node))
        && all_differ(tables.nodes.iter().flat_map(used_places))
        && (1..).zip(&tables.nodes).all(|(number, node)| {
            let mut children = tables.children_of(node).iter();
            children.all(|&child| child < number)
        })
}

fn is_node(tables: &Tables, number: u32) -> bool {
    (1..=tables.nodes.len() as u32).contains(&number)
}

/// Numbers of nodes, or places of child entries.
fn all_differ(mut numbers: impl Iterator<Item = u32>) -> bool {
    let mut met = [false; MAX_NODES + 1];
    numbers.all(|number| !std::mem::replace(&mut met[number as usize], true))
}

fn used_places(node: &Node) -> std::ops::Range<u32> {
    node.first..node.first + node.width()
}

fn range_holds(first: u32, length: u32, whole: usize) -> bool {
    first as usize + length as usize <= whole
}

fn name_holds(tables: &Tables, name: &Name) -> bool {
    (1..=MAX_NAME_LENGTH).contains(&name.length)
        && range_holds(name.start, name.length, tables.text.len())
}

/// Document 02: a sign and a size of 64 bits, down to -2^63; there is no minus zero.
fn number_holds(number: &Number) -> bool {
    !number.below_zero || (1..=1 << 63).contains(&number.size)
}

/// The names are known to hold.
fn words_hold(tables: &Tables, node: &Node) -> bool {
    let span_holds = node.start <= node.end && node.end as usize <= tables.text.len();
    let &Node { first, count, .. } = node;
    span_holds
        && match node.kind {
            kind::STRING => range_holds(first, count, tables.strings.len()),
            kind::RAW_STRING => range_holds(first, count, tables.text.len()),
            kind::NUMBER => (first as usize) < tables.numbers.len() && count == 0,
            kind::BOOL => first <= 1 && count == 0,
            kind::NULL | kind::OTHER => first == 0 && count == 0,
            kind::NAME => count == 0 && name_node_holds(tables, node),
            kind::ARRAY | kind::SET | kind::OBJECT => {
                range_holds(first, node.width(), tables.children.len())
            }
            _ => false,
        }
}

fn name_node_holds(tables: &Tables, node: &Node) -> bool {
    let own = &tables.text[node.start as usize..node.end as usize];
    let place = (node.first as usize).checked_sub(1);
    let name = place.and_then(|place| tables.names.get(place));
    name.is_some_and(|name| tables.name_bytes(name) == own)
}

/// Children stand below their parents, so their depths are known first.
fn deepest(tables: &Tables) -> u32 {
    let mut depths: Vec<u32> = Vec::new();
    for node in &tables.nodes {
        let children = tables.children_of(node).iter();
        let below = children.map(|&child| depths[child as usize - 1]).max();
        depths.push(1 + below.unwrap_or(0));
    }
    depths.into_iter().max().unwrap_or(0)
}

fn names_differ(tables: &Tables) -> bool {
    let mut met = BTreeSet::new();
    tables.names.iter().all(|name| met.insert(tables.name_bytes(name)))
}
