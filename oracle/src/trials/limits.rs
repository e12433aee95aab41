//! Depth, nodes and entries at their limits and one past.

use super::{trial, Trial};
use crate::sheets::limits;

pub fn trials() -> Vec<Trial> {
    let nested: String =
        (2..=32).rev().map(|node| format!("5 {node} 1 0 {}, ", u32::from(node < 32))).collect();
    let over = "1 0 0 0";
    let (literal, name) = ("0 0 0 1, 4 1 0 0 0", "0 0 0 1, 1 1 0 0 0");
    vec![
        trial("depth 32", &limits::depth(32), &format!("0 0 0 32, {nested}1 1 0 0 1")),
        trial("depth 33", &limits::depth(33), "3 0 0 0"),
        trial("512 nodes", &limits::nodes(512), &array_of(511, 4)),
        trial("513 nodes", &limits::nodes(513), over),
        trial("512 child entries", &limits::children(512), &array_of(511, 4)),
        trial("513 child entries", &limits::children(513), over),
        trial("256 numbers", &limits::numbers(256), &array_of(256, 4)),
        trial("257 numbers", &limits::numbers(257), over),
        trial("128 names", &limits::names(128), &array_of(128, 1)),
        trial("129 names", &limits::names(129), over),
        trial("a name of 255 bytes", &limits::name_bytes(255), name),
        trial("a name of 256 bytes", &limits::name_bytes(256), "2 0 0 0"),
        trial("8192 string bytes", &limits::string_bytes(8192), literal),
        trial("8193 string bytes", &limits::string_bytes(8193), over),
        trial("16384 text bytes", &limits::text_bytes(16384), name),
        trial("16385 text bytes", &limits::text_bytes(16385), over),
        trial("buffer exact", &limits::pairs(26, 57), &exact_pairs()),
        trial("buffer one entry short", &limits::pairs(5, 305), "6 0 1537 0"),
    ]
}

/// The plan of an array whose items are the nodes from 1 and have entries of one kind.
fn array_of(items: usize, kind: usize) -> String {
    let entries: String = (1..=items).map(|node| format!(", {kind} {node} 0 0 {node}")).collect();
    let nodes = items + 1;
    format!("0 0 0 {nodes}, 5 {nodes} {items} 0 0{entries}")
}

/// In `limits::pairs(26, 57)` the wildcards are nodes 2 to 58, their array 59, the left 1 is 61,
/// the values of the right "a" are 114, 116, .. and y is 166.
fn exact_pairs() -> String {
    let wildcards: String = (2..=58).map(|node| format!(", 2 {node} 0 0 {}", node - 1)).collect();
    let values = (0..26).map(|time| 114 + 2 * time);
    let pairs: String =
        values.map(|node| format!(", 7 {node} 1 0 0, 5 59 57 0 1{wildcards}")).collect();
    format!("0 4 0 1536{pairs}, 7 61 1 0 0, 1 166 0 0 1")
}
