//! A stand-in for the crate `anyhow`: as much as the copied files name.

use std::fmt;

#[derive(Debug)]
pub struct Error(String);

impl Error {
    pub fn new(message: String) -> Self {
        Self(message)
    }
}

impl fmt::Display for Error {
    fn fmt(&self, formatter: &mut fmt::Formatter<'_>) -> fmt::Result {
        formatter.write_str(&self.0)
    }
}

pub type Result<T> = core::result::Result<T, Error>;

#[macro_export]
macro_rules! bail {
    ($error:expr) => {
        return Err($error)
    };
}
