//! The text form of messages, patterns and sentences: one parser and one printer, each the inverse of the other. docs/TEXT.md has the grammar.
//!
//! A text is read token by token (`lexer`, with `quoted` and `word`); `tree` makes terms and patterns of the tokens, `messages` and
//! `sentences` read whole files. `printer` writes terms one by one, `display` writes trees with it.

mod display;
mod error;
mod lexer;
mod messages;
mod printer;
mod quoted;
mod sentences;
#[cfg(test)]
mod tests;
mod tree;
mod word;

pub use error::TextError;
pub use messages::{messages, Layout, Message};
pub(crate) use printer::Printer;
pub use sentences::{sentences, Sentence};

use crate::records::{MAX_DEPTH, MAX_NESTING, MAX_RECORDS, MAX_TEXT, MAX_VARIABLES};
use crate::{UnknownKind, VariableKind};

/// The letters of variables and unknowns with the kinds that they stand for, in the order of both enums.
pub(crate) const KINDS: [(char, VariableKind, UnknownKind); 3] = [
    ('s', VariableKind::S, UnknownKind::Symbol),
    ('t', VariableKind::T, UnknownKind::Term),
    ('e', VariableKind::E, UnknownKind::Expression),
];

/// The entry of `KINDS` whose letter and a dot start the text.
fn kind_at(text: &str) -> Option<(VariableKind, UnknownKind)> {
    let mut chars = text.chars();
    let letter = chars.next()?;
    let found = KINDS.iter().find(|kind| kind.0 == letter)?;
    (chars.next() == Some('.')).then_some((found.1, found.2))
}
