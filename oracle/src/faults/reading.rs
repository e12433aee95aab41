//! The rules of the tables as include/teluddru.h has them, each with its first broken place. Written
//! from the header and document 01, and not from the crates. A rule may rely on those before it.

use super::generate::Case;
use crate::answer::tables::kind;
use crate::parties::words::{NAME_WORDS, NODE_WORDS};

/// Of the tables as a whole.
const WHOLE: usize = 0;

/// A rule: the table check's number, and the first place where it is broken.
type Rule = (u32, fn(&Case) -> Option<usize>);

pub const RULES: [Rule; 23] = [
    (1, |c| over(c.words.nodes.len() / NODE_WORDS, 512)),
    (1, |c| over(c.words.children.len(), 512)),
    (1, |c| over(c.words.numbers.len() / 2, 256)),
    (1, |c| over(c.words.names.len() / NAME_WORDS, 128)),
    (1, |c| over(c.words.strings.len(), 8_192)),
    (1, |c| over(c.words.text.len(), 16_384)),
    (2, |c| over(c.words.nodes.len() % NODE_WORDS, 0)),
    (2, |c| over(c.words.numbers.len() % 2, 0)),
    (2, |c| over(c.words.names.len() % NAME_WORDS, 0)),
    (2, |c| {
        first(c.names(), |&(start, size)| {
            (1..=255).contains(&size) && start + size <= c.words.text.len()
        })
    }),
    (2, |c| first(c.words.numbers.chunks(2), |number| is_number(number[0], number[1]))),
    (2, |c| {
        first(c.words.children.iter(), |&&child| child != 0 && child as usize <= c.nodes().count())
    }),
    (2, |c| first(c.nodes(), |node| node.kind != 0 && node.kind <= kind::OTHER)),
    (2, |c| first(c.nodes(), |node| node.start <= node.end && node.end <= c.words.text.len())),
    (2, |c| first(c.nodes(), unused_is_zero)),
    (2, |c| first(c.nodes(), |node| is_within(c, node))),
    (2, |c| {
        first(c.nodes(), |node| {
            node.kind != kind::NAME
                || c.bytes(node.first - 1) == &c.words.text[node.start..node.end]
        })
    }),
    (2, |c| {
        first(c.nodes().enumerate(), |(place, node)| {
            c.children(node).iter().all(|&child| child as usize <= *place)
        })
    }),
    (2, |c| {
        first(c.words.children.iter().enumerate(), |&(place, child)| {
            !c.words.children[..place].contains(child)
        })
    }),
    (2, shared),
    (2, |c| first(c.marks.iter().take(128), |&&mark| mark < 32)),
    (3, too_deep),
    (4, |c| {
        first(0..c.names().count(), |&name| (0..name).all(|other| c.bytes(other) != c.bytes(name)))
    }),
];

/// The check's number, the rule's, the place, 0.
pub fn expected(case: &Case) -> [u32; 4] {
    let broken = (1..).zip(RULES).find_map(|(rule, (number, asked))| {
        asked(case).map(|place| [number, rule, place as u32, 0])
    });
    broken.unwrap_or_default()
}

fn over(size: usize, most: usize) -> Option<usize> {
    (size > most).then_some(WHOLE)
}

/// The place of the first that does not keep a rule, from 1.
fn first<T>(mut all: impl Iterator<Item = T>, keeps: impl Fn(&T) -> bool) -> Option<usize> {
    all.position(|one| !keeps(&one)).map(|place| place + 1)
}

fn is_number(below_zero: u64, size: u64) -> bool {
    below_zero == 0 || (below_zero == 1 && (1..=1 << 63).contains(&size))
}

pub struct Node {
    kind: u32,
    start: usize,
    end: usize,
    first: usize,
    count: usize,
}

impl Node {
    fn width(&self) -> usize {
        match self.kind {
            kind::ARRAY | kind::SET => self.count,
            kind::OBJECT => 2 * self.count,
            _ => 0,
        }
    }
}

fn unused_is_zero(node: &Node) -> bool {
    match node.kind {
        kind::NUMBER | kind::BOOL | kind::NAME => node.count == 0,
        kind::NULL | kind::OTHER => (node.first, node.count) == (0, 0),
        _ => true,
    }
}

fn is_within(case: &Case, node: &Node) -> bool {
    let words = &case.words;
    match node.kind {
        kind::STRING => node.first + node.count <= words.strings.len(),
        kind::RAW_STRING => node.first + node.count <= words.text.len(),
        kind::NUMBER => node.first < words.numbers.len() / 2,
        kind::BOOL => node.first < 2,
        kind::NAME => (1..=case.names().count()).contains(&node.first),
        kind::ARRAY | kind::SET | kind::OBJECT => node.first + node.width() <= words.children.len(),
        _ => true,
    }
}

fn shared(case: &Case) -> Option<usize> {
    let mut used = vec![false; case.words.children.len()];
    let mut uses_used = |node: Node| {
        let places = used.iter_mut().skip(node.first).take(node.width());
        places.fold(false, |met, place| std::mem::replace(place, true) || met)
    };
    case.nodes().position(|node| uses_used(node)).map(|place| place + 1)
}

fn too_deep(case: &Case) -> Option<usize> {
    let mut depths: Vec<usize> = Vec::new();
    for node in case.nodes() {
        let below = case.children(&node).iter().map(|&child| depths[child as usize - 1]).max();
        depths.push(1 + below.unwrap_or(0));
    }
    first(depths.into_iter(), |&depth| depth <= 32)
}

impl Case {
    /// Whole records alone, as are the names.
    fn nodes(&self) -> impl Iterator<Item = Node> + '_ {
        self.words.nodes.chunks_exact(NODE_WORDS).map(|w| {
            let [start, end, first, count] = [w[1], w[2], w[3], w[4]].map(|word| word as usize);
            Node { kind: w[0], start, end, first, count }
        })
    }

    /// Start and length of each.
    fn names(&self) -> impl Iterator<Item = (usize, usize)> + '_ {
        self.words.names.chunks_exact(NAME_WORDS).map(|w| (w[0] as usize, w[1] as usize))
    }

    /// Of the name at a place, from 0.
    fn bytes(&self, place: usize) -> &[u8] {
        let (start, length) = self.names().nth(place).expect("a name");
        &self.words.text[start..][..length]
    }

    fn children(&self, node: &Node) -> &[u32] {
        match node.width() {
            0 => &[],
            width => &self.words.children[node.first..][..width],
        }
    }
}
