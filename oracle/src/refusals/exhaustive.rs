//! All pairs of small sides over x, y, `_` and 1, with `[]`, `{}` and the keys "a" and 1, which may
//! repeat. Sizes are in nodes, keys counted.

use super::question::{Question, Scope};
use crate::generate::structures::lists;
use crate::sheets::Tree;

/// The most nodes of a side.
const SIDE_SIZE: usize = 6;
/// Of both together, and with how many at most in one of them.
const PAIR_SIZES: [(usize, usize); 8] =
    [(2, 6), (3, 6), (4, 6), (5, 6), (6, 6), (7, 6), (8, 6), (9, 5)];
/// Pairs on which trying and unification have to agree.
const COMPARED_SIZE: usize = 6;
const NAMES: [&str; 2] = ["x", "y"];

/// Every two sides of at most 8 nodes together and 6 each, and of 9 together and 5 each, so all of
/// at most 7; each name unbound or known. Names that are only exchanged are left out: y never
/// stands in front of the first x.
pub fn for_each_question(mut visit: impl FnMut(&Question)) {
    let sides = by_size();
    for (size, most) in PAIR_SIZES {
        for left in sides[..size.min(most + 1)].iter().flatten() {
            let right_size = size - left.size();
            if right_size <= most {
                let questions = sides[right_size].iter().filter_map(|right| question(left, right));
                questions.for_each(|question| visit(&question));
            }
        }
    }
}

pub fn is_compared(question: &Question) -> bool {
    question.items[0].size() + question.pattern.size() <= COMPARED_SIZE
}

fn question(left: &Tree, right: &Tree) -> Option<Question> {
    let mut met = names(left);
    met.extend(names(right));
    let first_x = met.iter().position(|name| *name == NAMES[0]);
    let first_y = met.iter().position(|name| *name == NAMES[1]);
    if first_y.is_some_and(|y| first_x.is_none_or(|x| y < x)) {
        return None;
    }
    let present = [first_x, first_y].into_iter().flatten().count();
    let scopes = scopes(&NAMES[..present]);
    Some(Question { items: vec![left.clone()], pattern: right.clone(), key: None, scopes })
}

fn names(tree: &Tree) -> Vec<&str> {
    match tree {
        Tree::Name(name) => vec![name],
        Tree::Array(items) => items.iter().flat_map(names).collect(),
        Tree::Object(fields) => fields.iter().flat_map(|(_, value)| names(value)).collect(),
        _ => Vec::new(),
    }
}

/// Each name without a mark or with mark 1.
fn scopes(names: &[&str]) -> Vec<Scope> {
    let marked = |choice: usize| {
        let mark = |(place, name): (usize, &&str)| (name.to_string(), (choice >> place & 1) as u32);
        names.iter().enumerate().map(mark).collect()
    };
    (0..1 << names.len()).map(marked).collect()
}

fn by_size() -> Vec<Vec<Tree>> {
    let mut sizes: Vec<Vec<Tree>> = vec![Vec::new()];
    for size in 1..=SIDE_SIZE {
        let mut trees = if size == 1 { leaves() } else { Vec::new() };
        trees.extend(lists(&sizes, size - 1).into_iter().map(Tree::Array));
        for fields in 0..size {
            let values = lists(&sizes, (size - 1).saturating_sub(fields));
            let values = values.into_iter().filter(|values| values.len() == fields);
            trees.extend(values.flat_map(objects));
        }
        sizes.push(trees);
    }
    sizes
}

fn leaves() -> Vec<Tree> {
    let names = NAMES.iter().chain(&["_"]).map(|name| Tree::name(name));
    names.chain([Tree::Number(1)]).collect()
}

/// The objects of some values, under all keys.
fn objects(values: Vec<Tree>) -> Vec<Tree> {
    let keys = [Tree::string("a"), Tree::Number(1)];
    let object = |choice: usize| {
        let key = |place: usize| keys[choice >> place & 1].clone();
        let fields = values.iter().enumerate().map(|(place, value)| (key(place), value.clone()));
        Tree::Object(fields.collect())
    };
    (0..1 << values.len()).map(object).collect()
}

#[cfg(test)]
mod tests {
    use super::*;

    #[test]
    fn sides_are_all_different_and_have_their_size() {
        for (size, trees) in by_size()[..=5].iter().enumerate() {
            assert!(trees.iter().all(|tree| tree.size() == size));
            let texts: std::collections::BTreeSet<String> =
                trees.iter().map(|tree| format!("{tree:?}")).collect();
            assert_eq!(texts.len(), trees.len());
        }
        let counts: Vec<usize> = by_size().iter().map(Vec::len).collect();
        assert_eq!(counts[..=5], [0, 6, 6, 54, 354, 3234]);
    }

    #[test]
    fn exchanged_names_are_left_out() {
        let [x, y] = NAMES.map(Tree::name);
        assert!(question(&x, &y).is_some() && question(&x, &x).is_some());
        assert!(question(&y, &x).is_none() && question(&Tree::Number(1), &y).is_none());
        assert_eq!(question(&x, &y).map(|question| question.scopes.len()), Some(4));
    }
}
