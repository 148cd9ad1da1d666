//! Why a run failed.

use std::fmt::{self, Display};
use std::io;

use crate::words;

/// The reason in plain words, with the name of the file.
#[derive(Debug)]
pub struct Failure(String);

impl Failure {
    pub fn new(words: impl Into<String>) -> Failure {
        Failure(words.into())
    }

    pub fn reading(name: impl Display, error: &io::Error) -> Failure {
        Failure(format!("cannot read {name}: {}", words::error(error)))
    }

    pub fn writing(name: impl Display, error: &io::Error) -> Failure {
        Failure(format!("cannot write {name}: {}", words::error(error)))
    }
}

impl Display for Failure {
    fn fmt(&self, f: &mut fmt::Formatter<'_>) -> fmt::Result {
        f.write_str(&self.0)
    }
}
