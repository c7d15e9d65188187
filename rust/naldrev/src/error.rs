//! Why a method of this crate gave no answer.

use std::fmt;

use crate::{Refusal, TextError};

/// Why a method gave no answer. Nothing was changed.
#[derive(Clone, Debug, PartialEq, Eq)]
#[non_exhaustive]
pub enum Error {
    /// The library refused the call.
    Refused(Refusal),
    /// A text could not be read.
    Text(TextError),
    /// A field, run, pattern, mark or set of bindings that another store made.
    OtherStore,
    /// A field, run, pattern, mark or set of bindings made after the mark to which its store was put back.
    PutBack,
    /// The tree of the terms would pass [`crate::MAX_VALUES`]. Brackets may share their contents, so a small store can hold a large tree.
    TooLarge,
    /// The texts of terms, patterns and bindings would pass [`crate::MAX_NAMES`] bytes.
    NamesFull,
}

impl fmt::Display for Error {
    fn fmt(&self, f: &mut fmt::Formatter<'_>) -> fmt::Result {
        match self {
            Error::Refused(refusal) => refusal.fmt(f),
            Error::Text(error) => error.fmt(f),
            Error::OtherStore => f.write_str("it belongs to another store"),
            Error::PutBack => f.write_str("it was made after the mark to which its store was put back"),
            Error::TooLarge => write!(f, "written out, the terms would be over {} values", crate::MAX_VALUES),
            Error::NamesFull => write!(f, "the identifiers, numbers and variables have over {} bytes together", crate::MAX_NAMES),
        }
    }
}

impl std::error::Error for Error {}

impl From<Refusal> for Error {
    fn from(refusal: Refusal) -> Error {
        Error::Refused(refusal)
    }
}

impl From<TextError> for Error {
    fn from(error: TextError) -> Error {
        Error::Text(error)
    }
}

#[cfg(test)]
mod tests {
    use super::*;

    #[test]
    fn a_refusal_says_what_it_says() {
        assert_eq!(Error::from(Refusal::PastEnd).to_string(), Refusal::PastEnd.to_string());
    }

    #[test]
    fn every_error_is_a_sentence() {
        for error in [Error::OtherStore, Error::PutBack, Error::TooLarge, Error::NamesFull] {
            assert!(error.to_string().contains(' '), "{error:?}");
        }
    }
}
