//! A rule as a draft in the plainest layout: nodes as they end in the rule text, no entry unused.

use super::draft::Draft;
use super::tree::{Operation, Rule, Tree};

pub fn encode(rule: &Rule) -> Draft {
    let mut encoder = Encoder {
        draft: Draft {
            operation: rule.operation as u32,
            scheduler: rule.scheduler.into(),
            scoping: 1 + u32::from(rule.shadowing) + 2 * u32::from(rule.careful),
            ..Draft::default()
        },
        names: Vec::new(),
    };
    encoder.rule(rule);
    encoder.names(rule);
    encoder.draft
}

/// The lines of a rule body in one draft: the operation and three roots of each. Names are marked
/// by the first line's scope.
pub fn encode_lines(rules: &[Rule]) -> (Draft, Vec<[u32; 4]>) {
    let mut encoder = Encoder { draft: Draft::default(), names: Vec::new() };
    let mut lines = Vec::new();
    for rule in rules {
        encoder.draft.roots = [0; 3];
        encoder.rule(rule);
        encoder.write("\n");
        let [first, second, key] = encoder.draft.roots;
        lines.push([rule.operation as u32, first, second, key]);
    }
    encoder.draft.roots = [0; 3];
    if let Some(rule) = rules.first() {
        encoder.names(rule);
    }
    (encoder.draft, lines)
}

struct Encoder {
    draft: Draft,
    names: Vec<String>,
}

impl Encoder {
    /// Roots are numbered first, second, key; the key's text stands in front of the value's.
    fn rule(&mut self, rule: &Rule) {
        let joint = match rule.operation {
            Operation::ColonEquals => " := ",
            Operation::Equals => " = ",
            _ => " in ",
        };
        if rule.operation == Operation::SomeIn {
            self.write("some ");
        }
        self.draft.roots[0] = self.tree(&rule.first);
        if let Some(second) = &rule.second {
            self.write(joint);
            self.draft.roots[1] = self.tree(second);
        }
        if let Some(key) = &rule.key {
            self.write(" by ");
            self.draft.roots[2] = self.tree(key);
        }
    }

    /// The names as met, then those that the scope alone has.
    fn names(&mut self, rule: &Rule) {
        let listed = rule.scope.iter().map(|(name, _)| name.clone());
        let more: Vec<String> = listed.filter(|name| !self.names.contains(name)).collect();
        self.names.extend(more);
        for name in std::mem::take(&mut self.names) {
            let marks = rule.scope.iter().find(|(listed, _)| *listed == name);
            let start = self.find(&name);
            let marks = marks.map_or(0, |(_, marks)| *marks);
            self.draft.names.push([start, name.len() as u32, marks]);
        }
    }

    /// Where the text has a name's bytes; they are added if it has not.
    fn find(&mut self, name: &str) -> u32 {
        let found = self.draft.text.windows(name.len()).position(|part| part == name.as_bytes());
        found.map_or_else(
            || {
                self.write(" ");
                let start = self.place();
                self.write(name);
                start
            },
            |start| start as u32,
        )
    }

    fn write(&mut self, text: &str) {
        self.draft.text.extend(text.as_bytes());
    }

    fn place(&self) -> u32 {
        self.draft.text.len() as u32
    }

    fn tree(&mut self, tree: &Tree) -> u32 {
        let start = self.place();
        let (kind, first, count) = match tree {
            Tree::Array(items) => self.items(7, "[", items, "]"),
            Tree::Set(items) => self.items(8, "{", items, "}"),
            Tree::Object(fields) => self.object(fields),
            _ => self.leaf(tree),
        };
        self.draft.nodes.push([kind, start, self.place(), first, count]);
        self.draft.nodes.len() as u32
    }

    fn leaf(&mut self, tree: &Tree) -> (u32, u32, u32) {
        match tree {
            Tree::String(text) => {
                let first = self.draft.strings.len() as u32;
                self.draft.strings.extend(text.as_bytes());
                self.write(&format!("\"{text}\""));
                (1, first, text.len() as u32)
            }
            Tree::RawString(text) => {
                let first = self.place() + 1;
                self.write(&format!("`{text}`"));
                (2, first, text.len() as u32)
            }
            Tree::Number(number) => {
                self.draft.numbers.push(*number);
                self.write(&number.to_string());
                (3, self.draft.numbers.len() as u32 - 1, 0)
            }
            Tree::Bool(value) => {
                self.write(if *value { "true" } else { "false" });
                (4, (*value).into(), 0)
            }
            Tree::Name(name) => {
                self.write(name);
                (6, self.name_number(name), 0)
            }
            Tree::Null => {
                self.write("null");
                (5, 0, 0)
            }
            _ => {
                self.write("f()");
                (10, 0, 0)
            }
        }
    }

    fn name_number(&mut self, name: &str) -> u32 {
        let met = self.names.iter().position(|met| met == name);
        let place = met.unwrap_or_else(|| {
            self.names.push(name.into());
            self.names.len() - 1
        });
        place as u32 + 1
    }

    fn items(&mut self, kind: u32, open: &str, items: &[Tree], close: &str) -> (u32, u32, u32) {
        self.write(open);
        let mut children = Vec::new();
        for (place, item) in items.iter().enumerate() {
            self.write(if place == 0 { "" } else { ", " });
            children.push(self.tree(item));
        }
        self.write(close);
        (kind, self.children(&children), items.len() as u32)
    }

    fn object(&mut self, fields: &[(Tree, Tree)]) -> (u32, u32, u32) {
        self.write("{");
        let mut children = Vec::new();
        for (place, (key, value)) in fields.iter().enumerate() {
            self.write(if place == 0 { "" } else { ", " });
            children.push(self.tree(key));
            self.write(": ");
            children.push(self.tree(value));
        }
        self.write("}");
        (9, self.children(&children), fields.len() as u32)
    }

    fn children(&mut self, children: &[u32]) -> u32 {
        let first = self.draft.children.len() as u32;
        self.draft.children.extend(children);
        first
    }
}
