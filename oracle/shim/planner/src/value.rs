//! A stand-in for `value::Value`: literals, in the order of keys of value/mod.rs and number.rs.

use crate::Rc;
use core::cmp::Ordering;
use core::fmt;

/// The derived order is the Rust's: null, bools, numbers, strings by bytes.
#[derive(Clone, Debug, PartialEq, Eq, PartialOrd, Ord)]
pub enum Value {
    Null,
    Bool(bool),
    Number(Number),
    String(Rc<str>),
}

/// The whole numbers of number.rs that fit in 64 bits. As `from_str` makes them, zero and below are
/// `Int`, and what is above zero `UInt`.
#[derive(Clone, Debug)]
pub enum Number {
    UInt(u64),
    Int(i64),
}

impl Number {
    /// None where number.rs has a `BigInt`.
    pub fn new(below_zero: bool, size: u64) -> Option<Self> {
        match (below_zero, size) {
            (_, 0) => Some(Self::Int(0)),
            (true, size) => 0i64.checked_sub_unsigned(size).map(Self::Int),
            (false, size) => Some(Self::UInt(size)),
        }
    }
}

impl Ord for Number {
    fn cmp(&self, other: &Self) -> Ordering {
        match (self, other) {
            (Self::UInt(a), Self::UInt(b)) => a.cmp(b),
            (Self::Int(a), Self::Int(b)) => a.cmp(b),
            (Self::UInt(a), Self::Int(b)) => cmp_uint_sint(*a, *b),
            (Self::Int(a), Self::UInt(b)) => cmp_uint_sint(*b, *a).reverse(),
        }
    }
}

fn cmp_uint_sint(lhs: u64, rhs: i64) -> Ordering {
    if rhs < 0 {
        Ordering::Greater
    } else {
        lhs.cmp(&(rhs as u64))
    }
}

impl PartialOrd for Number {
    fn partial_cmp(&self, other: &Self) -> Option<Ordering> {
        Some(self.cmp(other))
    }
}

impl PartialEq for Number {
    fn eq(&self, other: &Self) -> bool {
        self.cmp(other) == Ordering::Equal
    }
}

impl Eq for Number {}

/// The JSON form, which is the text of a key that is no string.
impl fmt::Display for Value {
    fn fmt(&self, formatter: &mut fmt::Formatter<'_>) -> fmt::Result {
        match self {
            Self::Null => formatter.write_str("null"),
            Self::Bool(value) => write!(formatter, "{value}"),
            Self::Number(Number::UInt(value)) => write!(formatter, "{value}"),
            Self::Number(Number::Int(value)) => write!(formatter, "{value}"),
            Self::String(value) => write!(formatter, "{value:?}"),
        }
    }
}
