//! The root that the copied files stand under.
#![allow(dead_code)]

extern crate alloc;

pub mod ast;
pub mod compiler;
pub mod lexer;
mod utils;
pub mod value;

pub use alloc::rc::Rc;
