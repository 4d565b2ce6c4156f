//! Stands in for the crate `anyhow`, which would have to be fetched: an error of any type in a box, and the Result with it.
use std::error::Error as StdError;
use std::fmt;

pub struct Error(Box<dyn StdError + Send + Sync>);

pub type Result<T, E = Error> = std::result::Result<T, E>;

impl<E: StdError + Send + Sync + 'static> From<E> for Error {
    fn from(error: E) -> Error {
        Error(Box::new(error))
    }
}

impl fmt::Debug for Error {
    fn fmt(&self, formatter: &mut fmt::Formatter<'_>) -> fmt::Result {
        fmt::Display::fmt(&self.0, formatter)
    }
}
