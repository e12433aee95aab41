//! What a sheet says, before it is laid out in tables.

#[derive(Clone, Debug, PartialEq)]
pub enum Tree {
    String(String),
    RawString(String),
    Number(i128),
    Bool(bool),
    Null,
    Name(String),
    Array(Vec<Tree>),
    Set(Vec<Tree>),
    Object(Vec<(Tree, Tree)>),
    Other,
}

impl Tree {
    pub fn name(text: &str) -> Self {
        Self::Name(text.into())
    }

    pub fn string(text: &str) -> Self {
        Self::String(text.into())
    }

    /// Whether a name stands anywhere in it.
    pub fn has_name(&self, name: &str) -> bool {
        match self {
            Self::Name(own) => own == name,
            Self::Array(items) | Self::Set(items) => items.iter().any(|item| item.has_name(name)),
            Self::Object(fields) => {
                fields.iter().any(|(key, value)| key.has_name(name) || value.has_name(name))
            }
            _ => false,
        }
    }

    /// The number of nodes.
    pub fn size(&self) -> usize {
        1 + match self {
            Self::Array(items) | Self::Set(items) => items.iter().map(Self::size).sum(),
            Self::Object(fields) => {
                fields.iter().map(|(key, value)| key.size() + value.size()).sum()
            }
            _ => 0,
        }
    }
}

#[derive(Clone, Copy, Debug, PartialEq, Eq)]
pub enum Operation {
    Pattern = 1,
    ColonEquals,
    Equals,
    SomeIn,
    Index,
    Parameter,
}

#[derive(Clone, Debug)]
pub struct Rule {
    pub operation: Operation,
    pub first: Tree,
    pub second: Option<Tree>,
    pub key: Option<Tree>,
    pub scheduler: bool,
    pub shadowing: bool,
    /// The careful reading: scoping 3 and 4 for 1 and 2.
    pub careful: bool,
    /// Names with their marks; one that is not listed has none.
    pub scope: Vec<(String, u32)>,
}

impl Rule {
    /// Under RespectParent in the present reading, with no name marked.
    pub fn new(operation: Operation, first: Tree) -> Self {
        Self {
            operation,
            first,
            second: None,
            key: None,
            scheduler: false,
            shadowing: false,
            careful: false,
            scope: Vec::new(),
        }
    }

    pub fn two_sided(operation: Operation, first: Tree, second: Tree) -> Self {
        Self { second: Some(second), ..Self::new(operation, first) }
    }

    pub fn with_marks(mut self, name: &str, marks: u32) -> Self {
        self.scope.push((name.into(), marks));
        self
    }
}
