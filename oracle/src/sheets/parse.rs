//! Rules written by hand, for the trials: `[x, 1] = [1, x]`, `some k, v in xs`, `index [x, x]`,
//! `shadowing parameter x`, `scheduler index x`, `careful [x, [y]] := [1, []]`.

use super::tree::{Operation, Rule, Tree};

/// The rule that a text says. The texts are ours, so one that can't be read is a fault of ours.
pub fn rule(text: &str) -> Rule {
    if let Some(text) = text.strip_prefix("scheduler ") {
        return Rule { scheduler: true, ..rule(text) };
    }
    if let Some(text) = text.strip_prefix("careful ") {
        return Rule { careful: true, ..rule(text) };
    }
    if let Some(text) = text.strip_prefix("shadowing ") {
        return Rule { shadowing: true, ..rule(text) };
    }
    let singles = [
        ("pattern ", Operation::Pattern),
        ("index ", Operation::Index),
        ("parameter ", Operation::Parameter),
    ];
    for (word, operation) in singles {
        if let Some(pattern) = text.strip_prefix(word) {
            return Rule::new(operation, tree(pattern));
        }
    }
    if let Some(text) = text.strip_prefix("some ") {
        return some_in(text);
    }
    let sides = [(" := ", Operation::ColonEquals), (" = ", Operation::Equals)];
    for (joint, operation) in sides {
        if let Some((left, right)) = text.split_once(joint) {
            return Rule::two_sided(operation, tree(left), tree(right));
        }
    }
    panic!("no rule: {text}");
}

fn some_in(text: &str) -> Rule {
    let (patterns, collection) = text.split_once(" in ").expect("a collection");
    let mut reader = Reader { rest: patterns };
    let first = reader.tree();
    let second = reader.skip(", ").then(|| reader.tree());
    reader.end();
    let (key, value) = match second {
        Some(value) => (Some(first), value),
        None => (None, first),
    };
    Rule { key, ..Rule::two_sided(Operation::SomeIn, value, tree(collection)) }
}

fn tree(text: &str) -> Tree {
    let mut reader = Reader { rest: text };
    let tree = reader.tree();
    reader.end();
    tree
}

struct Reader<'a> {
    rest: &'a str,
}

impl<'a> Reader<'a> {
    fn end(&self) {
        assert!(self.rest.is_empty(), "left over: {}", self.rest);
    }

    fn skip(&mut self, text: &str) -> bool {
        let rest = self.rest.strip_prefix(text);
        self.rest = rest.unwrap_or(self.rest);
        rest.is_some()
    }

    fn tree(&mut self) -> Tree {
        if self.skip("set()") {
            Tree::Set(Vec::new())
        } else if self.skip("f()") {
            Tree::Other
        } else if self.skip("[") {
            Tree::Array(self.list("]", Self::tree))
        } else if self.skip("{") {
            self.braces()
        } else if self.skip("\"") {
            Tree::String(self.until("\""))
        } else if self.skip("`") {
            Tree::RawString(self.until("`"))
        } else {
            self.word()
        }
    }

    fn list<T>(&mut self, close: &str, item: impl Fn(&mut Self) -> T) -> Vec<T> {
        let mut items = Vec::new();
        while !self.skip(close) {
            items.push(item(self));
            self.skip(", ");
        }
        items
    }

    fn braces(&mut self) -> Tree {
        let inside = self.rest;
        if !inside.starts_with('}') {
            self.tree();
        }
        let is_set =
            self.rest.starts_with(',') || (self.rest.starts_with('}') && self.rest != inside);
        self.rest = inside;
        if is_set {
            Tree::Set(self.list("}", Self::tree))
        } else {
            Tree::Object(self.list("}", |reader| {
                let key = reader.tree();
                assert!(reader.skip(": "), "no value: {}", reader.rest);
                (key, reader.tree())
            }))
        }
    }

    fn until(&mut self, close: &str) -> String {
        let (text, rest) = self.rest.split_once(close).expect("a closed string");
        self.rest = rest;
        text.into()
    }

    fn word(&mut self) -> Tree {
        let end = self.rest.find([',', ':', ']', '}']).unwrap_or(self.rest.len());
        let (word, rest) = self.rest.split_at(end);
        self.rest = rest;
        match word {
            "true" => Tree::Bool(true),
            "false" => Tree::Bool(false),
            "null" => Tree::Null,
            _ => word.parse().map_or_else(|_| Tree::name(word), Tree::Number),
        }
    }
}

#[cfg(test)]
mod tests {
    use super::*;

    #[test]
    fn braces_are_objects_or_sets() {
        assert_eq!(tree("{}"), Tree::Object(Vec::new()));
        assert_eq!(tree("set()"), Tree::Set(Vec::new()));
        assert_eq!(tree("{1}"), Tree::Set(vec![Tree::Number(1)]));
        assert_eq!(tree("{{1}, x}"), Tree::Set(vec![tree("{1}"), Tree::name("x")]));
        assert_eq!(tree("{[x]: {}}"), Tree::Object(vec![(tree("[x]"), tree("{}"))]));
    }

    #[test]
    fn a_some_in_key_stands_in_front() {
        let rule = rule("some k, [v] in xs");
        assert_eq!(rule.key, Some(Tree::name("k")));
        assert_eq!((rule.first, rule.second), (tree("[v]"), Some(Tree::name("xs"))));
    }
}
