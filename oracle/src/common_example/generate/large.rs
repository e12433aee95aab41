//! Two patterns whose value is deep or large, for names hold each other.

use super::related::{arrays, turned, Scope};
use crate::generate::Random;
use crate::matching::generate::trees::value;
use crate::matching::generate::Parts;
use crate::sheets::Tree;

const UNBOUND_MARKS: [u32; 5] = [0, 0, 2, 4, 5];

/// What the last name of a chain is.
enum End {
    Free,
    Value(Tree),
    /// An earlier name of its side again.
    Loop,
}

/// A value about as deep as the limit, or one that would have to hold itself.
pub fn chain(random: &mut Random) -> [Parts; 2] {
    if random.chance(35) {
        let links = 1 + random.below(27);
        let levels = 28 - links + random.below(5);
        let end = (0..levels).fold(value(random, 0), |inner, _| Tree::Array(vec![inner]));
        return linked(random, links, 1, End::Value(end));
    }
    let links = if random.chance(70) { 27 + random.below(7) } else { 1 + random.below(40) };
    let end = match random.weighted(&[50, 20, 30]) {
        0 => End::Free,
        1 => End::Value(value(random, 1)),
        _ => End::Loop,
    };
    linked(random, links, 1, end)
}

/// Each name holds the next more than once: about as many nodes as the limit, or so many that
/// words of 16, 32 or 64 bits don't count them.
pub fn doubling(random: &mut Random) -> [Parts; 2] {
    let width = 2 + random.weighted(&[50, 20, 10, 5, 5, 5, 5]);
    let links = match random.weighted(&[60, 15, 25]) {
        0 => 1 + random.below(18 / width),
        1 => 8 + random.below(8),
        _ => 1 + random.below(29),
    };
    let end = if random.chance(10) { End::Loop } else { End::Free };
    linked(random, links, width, end)
}

/// The names are those of either side by turns, spelled alike, and each holds the next so often.
fn linked(random: &mut Random, links: usize, width: usize, end: End) -> [Parts; 2] {
    let name = |link: usize| format!("n{}", link / 2);
    let last = match end {
        End::Loop if links > 1 => links - 2 * (1 + random.below(links / 2)),
        _ => links,
    };
    let mut items = Vec::new();
    for link in 0..links {
        let next = if link + 1 == links { last } else { link + 1 };
        let holding = holder(random, Tree::Name(name(next)), width);
        items.push(turned([Tree::Name(name(link)), holding], link % 2));
    }
    let mut scopes: [Scope; 2] = [Vec::new(), Vec::new()];
    for link in 0..=links {
        scopes[link % 2].push((name(link), *random.pick(&UNBOUND_MARKS)));
    }
    let mut values = scopes.each_ref().map(|scope| vec![Tree::Null; scope.len()]);
    if let End::Value(tree) = end {
        let place = links % 2;
        if random.chance(50) {
            scopes[place][links / 2].1 = 1;
            values[place][links / 2] = tree;
        } else {
            items.push(turned([Tree::Name(name(links)), tree], place));
        }
    }
    sides(random, items, scopes, values)
}

/// An array or object that has a part so often, and at times another.
fn holder(random: &mut Random, part: Tree, width: usize) -> Tree {
    let mut parts = vec![part; width];
    if random.chance(10) {
        let other = if random.chance(50) { Tree::name("_") } else { value(random, 0) };
        parts.insert(random.below(width + 1), other);
    }
    if random.chance(70) {
        return Tree::Array(parts);
    }
    let mut keys: Vec<i128> = (0..parts.len() as i128).collect();
    random.shuffle(&mut keys);
    Tree::Object(keys.into_iter().map(Tree::Number).zip(parts).collect())
}

/// One value many times, and places that nothing fixes: about as many nodes as the limit, or fewer.
pub fn copies(random: &mut Random) -> [Parts; 2] {
    let nodes = if random.chance(60) { 507 + random.below(10) } else { 30 + random.below(370) };
    let size = (nodes / 50).max(2) + random.below(nodes / 5);
    let count = (nodes - 1) / size;
    let free = nodes - 1 - count * size;
    let copied = sized(random, size);
    let is_known = random.chance(30);
    let name = |random: &mut Random| Tree::name(random.pick::<&str>(&["_", "x"]));
    let mut items: Vec<[Tree; 2]> = (0..count).map(|_| [Tree::name("x"), name(random)]).collect();
    if !is_known {
        items[0][1] = copied.clone();
    }
    items.extend((0..free).map(|_| [Tree::name("_"), Tree::name("_")]));
    let scopes = [u32::from(is_known), 0].map(|marks| vec![("x".to_string(), marks)]);
    sides(random, items, scopes, [vec![copied], vec![Tree::Null]])
}

/// Many names of both sides that have to be equal to each other, and at times to something else.
pub fn crowd(random: &mut Random) -> [Parts; 2] {
    let names = 1 + random.below(127);
    let weights = *random.pick(&[[100, 0, 0, 0], [95, 5, 0, 0], [96, 0, 0, 4], [90, 6, 1, 3]]);
    let name = |random: &mut Random| Tree::Name(format!("n{}", random.below(names)));
    let item = |random: &mut Random| {
        let other = match random.weighted(&weights) {
            0 => name(random),
            1 => Tree::Number(1),
            2 => Tree::Null,
            _ => Tree::Array(vec![name(random)]),
        };
        turned([name(random), other], random.below(2))
    };
    let items = (0..1 + random.below(150)).map(|_| item(random)).collect();
    let scopes = [(); 2].map(|()| {
        let marked = |place| (format!("n{place}"), *random.pick(&UNBOUND_MARKS));
        (0..names).map(marked).collect::<Scope>()
    });
    sides(random, items, scopes, [(); 2].map(|()| vec![Tree::Null; names]))
}

/// A value of so many nodes.
fn sized(random: &mut Random, size: usize) -> Tree {
    if size == 1 {
        return value(random, 0);
    }
    let keys = usize::from(size > 2 && random.chance(40));
    let (mut parts, mut left) = (Vec::new(), size - 1);
    while left > 0 {
        let most = left - keys;
        let drawn = most.min(1 + random.below(20));
        let own = if most - drawn > keys { drawn } else { most };
        parts.push(sized(random, own));
        left -= keys + own;
    }
    if keys == 0 {
        return Tree::Array(parts);
    }
    let key = |place: usize| Tree::String(format!("k{place}"));
    Tree::Object(parts.into_iter().enumerate().map(|(place, part)| (key(place), part)).collect())
}

/// The items in any order.
fn sides(
    random: &mut Random,
    mut items: Vec<[Tree; 2]>,
    [first, second]: [Scope; 2],
    [ones, others]: [Vec<Tree>; 2],
) -> [Parts; 2] {
    random.shuffle(&mut items);
    let [left, right] = arrays(items);
    [Parts::new(random, left, first, &ones), Parts::new(random, right, second, &others)]
}
