//! Any error, by what it prints.
use core::fmt;

/// What is made, or any error.
pub type Result<T> = core::result::Result<T, Error>;

/// What an error prints.
#[derive(Debug)]
pub struct Error(String);

impl<E: core::error::Error> From<E> for Error {
    fn from(error: E) -> Error {
        Error(error.to_string())
    }
}

impl fmt::Display for Error {
    fn fmt(&self, f: &mut fmt::Formatter<'_>) -> fmt::Result {
        f.write_str(&self.0)
    }
}
