//! Shapes of rules that grow to a limit of document 01.

use super::Input;
use oracle::sheets::{encode, limits, Draft, Operation, Rule, Tree};

pub struct Shape {
    pub name: String,
    /// The greatest size.
    pub limit: usize,
    pub draft: Box<dyn Fn(usize) -> Draft>,
}

impl Shape {
    fn new(name: &str, limit: usize, draft: impl Fn(usize) -> Draft + 'static) -> Self {
        Self { name: name.into(), limit, draft: Box::new(draft) }
    }

    pub fn at_limit(&self) -> Input {
        Input::of_drafts(&self.name, vec![(self.draft)(self.limit)])
    }
}

pub fn shapes() -> Vec<Shape> {
    let mut shapes = vec![
        Shape::new("array of 500 literals", 500, |size| pattern(array(size, literal))),
        Shape::new("array of 500 names", 500, |size| {
            pattern(array(size, |place| name(place % 128)))
        }),
    ];
    for (keys, key) in [("short", short as fn(usize) -> Tree), ("long", long)] {
        for (order, place) in [
            ("sorted", sorted as fn(usize, usize) -> usize),
            ("reversed", reversed),
            ("shuffled", shuffled),
        ] {
            let name = format!("object of 250 {keys} keys, {order}");
            let draft = move |size| pattern(object(size, |field| key(place(field, size))));
            shapes.push(Shape::new(&name, 250, draft));
        }
    }
    shapes.extend([
        Shape::new("object of 250 number keys, shuffled", 250, |size| {
            pattern(object(size, |field| Tree::Number(shuffled(field, size) as i128)))
        }),
        Shape::new("object of 250 overlapping keys, shuffled", 250, overlapping),
        Shape::new("32 levels of arrays", 32, |depth| pattern(nested_arrays(depth))),
        Shape::new("32 levels of objects", 32, |depth| pattern(nested_objects(depth))),
        Shape::new("128 names", 128, |size| pattern(array(size, name))),
        Shape::new("128 long names", 128, |size| pattern(array(size, long_name))),
        Shape::new("pairs: 62 and 62 binding fields", 62, |size| pairs_of_objects(size)),
        Shape::new("pairs: 32 levels", 32, pairs_of_levels),
        Shape::new("pairs: an array paired 26 times", 26, |times| limits::pairs(times, 57)),
        Shape::new("pairs: an object paired 40 times", 40, |times| repeated_object(times, 36)),
        Shape::new("`:=` with an object of 120 keys", 120, colon_equals),
        Shape::new("some-in with 60 items", 60, some_in),
    ]);
    shapes
}

pub fn pattern(tree: Tree) -> Draft {
    encode(&Rule::new(Operation::Pattern, tree))
}

pub fn equals(left: Tree, right: Tree) -> Draft {
    encode(&Rule::two_sided(Operation::Equals, left, right))
}

pub fn assigned(left: Tree, right: Tree) -> Draft {
    encode(&Rule::two_sided(Operation::ColonEquals, left, right))
}

pub fn array(size: usize, item: impl Fn(usize) -> Tree) -> Tree {
    Tree::Array((0..size).map(item).collect())
}

/// Every other value is a name, the others `_`.
fn object(size: usize, key: impl Fn(usize) -> Tree) -> Tree {
    let value = |field| if field % 2 == 0 { name(field / 2) } else { Tree::name("_") };
    Tree::Object((0..size).map(|field| (key(field), value(field))).collect())
}

fn literal(place: usize) -> Tree {
    match place % 4 {
        0 => Tree::Number(place as i128),
        1 => Tree::string(&format!("part {place}")),
        2 => Tree::Bool(place % 8 == 2),
        _ => Tree::Null,
    }
}

pub fn name(number: usize) -> Tree {
    Tree::Name(format!("n{number}"))
}

/// 120 bytes that all such names share, and 3 that tell them apart.
fn long_name(number: usize) -> Tree {
    Tree::Name(format!("{:_<120}{number:03}", "height_above_the_plinth"))
}

fn short(number: usize) -> Tree {
    Tree::String(format!("k{number:03}"))
}

/// 29 bytes that all such keys share, and 3 that tell them apart.
fn long(number: usize) -> Tree {
    Tree::String(format!("hinge position over the floor{number:03}"))
}

fn sorted(field: usize, _size: usize) -> usize {
    field
}

fn reversed(field: usize, size: usize) -> usize {
    size - 1 - field
}

/// A walk over all fields: 101 is prime and divides no size here.
fn shuffled(field: usize, size: usize) -> usize {
    (field * 101 + 37) % size
}

/// Each key begins at the string store's first byte and ends near its last.
fn overlapping(size: usize) -> Draft {
    let mut draft = pattern(object(size, |_| Tree::string("")));
    draft.strings = vec![b'k'; 8192];
    let keys = draft.nodes.iter_mut().filter(|node| node[0] == 1);
    for (field, key) in keys.enumerate() {
        key[4] = (8192 - shuffled(field, size)) as u32;
    }
    draft
}

/// Fifteen items at each level, the last of them the next level.
fn nested_arrays(depth: usize) -> Tree {
    let level = |inner: Tree, level: usize| {
        let mut items: Vec<Tree> = (0..14).map(|item| name((level * 4 + item) % 128)).collect();
        items.push(inner);
        Tree::Array(items)
    };
    (1..depth).fold(name(0), level)
}

/// Seven fields at each level, the first of them the next level.
fn nested_objects(depth: usize) -> Tree {
    let level = |inner: Tree, level: usize| {
        let field = |field| (short(7 - field), name((level * 4 + field) % 128));
        let mut fields = vec![(short(7), inner)];
        fields.extend((1..7).map(field));
        Tree::Object(fields)
    };
    (1..depth).fold(name(0), level)
}

/// `{"k0": [n0, 0], ..} = {"k0": [0, m0], ..}`, the right in another order.
fn pairs_of_objects(size: usize) -> Draft {
    let number = |field| Tree::Number(field as i128);
    let left = |field| (short(field), Tree::Array(vec![name(field), number(field)]));
    let right = |field| {
        let field = shuffled(field, size);
        (short(field), Tree::Array(vec![number(field), Tree::Name(format!("m{field}"))]))
    };
    equals(
        Tree::Object((0..size).map(left).collect()),
        Tree::Object((0..size).map(right).collect()),
    )
}

/// `[n, 0, .., [n, 0, .., ..]] = [0, m, .., [0, m, .., ..]]`: each level is a pair of its own.
fn pairs_of_levels(depth: usize) -> Draft {
    let side = |turn: usize, letter: &str| {
        let item = |level: usize, item: usize| match (item + turn) % 2 {
            0 => Tree::Name(format!("{letter}{}", (level + item) % 60)),
            _ => Tree::Bool(true),
        };
        let level = |inner: Tree, level: usize| {
            let mut items: Vec<Tree> = (0..6).map(|place| item(level, place)).collect();
            items.push(inner);
            Tree::Array(items)
        };
        (1..depth).fold(item(0, 0), level)
    };
    equals(side(0, "n"), side(1, "m"))
}

/// `{"a": {..}, "b": 1, ..} = {"a": true, .., "b": y}`: the inner object is planned anew each time.
pub fn repeated_object(times: usize, fields: usize) -> Draft {
    let inner = (0..fields).map(|field| (short(reversed(field, fields)), Tree::name("_")));
    let mut left = vec![(Tree::string("a"), Tree::Object(inner.collect()))];
    left.push((Tree::string("b"), Tree::Number(1)));
    left.extend((1..times).map(|key| (Tree::Number(key as i128), Tree::Null)));
    let mut right = vec![(Tree::string("a"), Tree::Bool(true)); times];
    right.push((Tree::string("b"), Tree::name("y")));
    equals(Tree::Object(left), Tree::Object(right))
}

/// The names of the left against the numbers of the right, keys shuffled on both sides.
fn colon_equals(size: usize) -> Draft {
    let left = |field| (long(shuffled(field, size)), name(field));
    let right = |field| (long(shuffled(field + 7, size)), Tree::Number(field as i128));
    let sides = [(0..size).map(left).collect(), (0..size).map(right).collect()].map(Tree::Object);
    let [left, right] = sides;
    assigned(left, right)
}

/// A pattern of three fields held against each item.
fn some_in(items: usize) -> Draft {
    let fields = |value: &dyn Fn(usize) -> Tree| {
        Tree::Object(
            ["to", "from", "cup"]
                .iter()
                .enumerate()
                .map(|(place, key)| (Tree::string(key), value(place)))
                .collect(),
        )
    };
    let collection = array(items, |item| fields(&|place| Tree::Number((item * 3 + place) as i128)));
    let mut rule = Rule::two_sided(Operation::SomeIn, fields(&name), collection);
    rule.key = Some(Tree::name("hinge"));
    encode(&rule)
}
