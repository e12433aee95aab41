//! A stand-in for `lexer::Span`: the text of a name, and which node it is.

use crate::Rc;

#[derive(Clone, Debug)]
pub struct Span {
    /// The name's bytes for a name node; the planner asks no other node for its text.
    pub text: Rc<str>,
    /// The node's number in the table, 0 for an expression that stands in no table.
    pub node: u32,
    /// Which of the operation's expressions it is a part of.
    pub root: u32,
}

impl Span {
    pub fn text(&self) -> &str {
        &self.text
    }

    pub fn error(&self, message: &str) -> anyhow::Error {
        anyhow::Error::new(self.message("error", message))
    }

    pub fn message(&self, kind: &str, message: &str) -> String {
        format!("{kind}: node {}: {message}", self.node)
    }
}
