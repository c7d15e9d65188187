//! What is wrong with a text, and where.

use std::fmt;

/// Why a text cannot be read, and the place.
///
/// ```
/// use naldrev::Expression;
/// let error = "Session 10:15".parse::<Expression>().unwrap_err();
/// assert_eq!((error.line(), error.column()), (1, 9));
/// assert_eq!(error.to_string(), "line 1, column 9: 10:15 is no term; as characters it is written '10:15'");
/// ```
#[derive(Clone, Debug, PartialEq, Eq)]
pub struct TextError {
    line: usize,
    column: usize,
    message: String,
}

impl TextError {
    /// The error at a byte of the text.
    pub(super) fn new(text: &str, at: usize, message: impl Into<String>) -> TextError {
        let before = &text[..at];
        let line_start = before.rfind('\n').map_or(0, |end| end + 1);
        let column = before[line_start..].chars().count() + 1;
        TextError { line: Lines::new(text).line(at), column, message: message.into() }
    }

    /// The line, from 1.
    pub fn line(&self) -> usize {
        self.line
    }

    /// The column in characters, from 1.
    pub fn column(&self) -> usize {
        self.column
    }

    /// What is wrong, without the place.
    pub fn message(&self) -> &str {
        &self.message
    }
}

impl fmt::Display for TextError {
    fn fmt(&self, f: &mut fmt::Formatter<'_>) -> fmt::Result {
        write!(f, "line {}, column {}: {}", self.line, self.column, self.message)
    }
}

impl std::error::Error for TextError {}

/// Numbers of lines, asked for from left to right, so that all answers together take one pass over the text.
pub(super) struct Lines<'a> {
    text: &'a str,
    at: usize,
    line: usize,
}

impl<'a> Lines<'a> {
    pub(super) fn new(text: &'a str) -> Lines<'a> {
        Lines { text, at: 0, line: 1 }
    }

    /// The line of a byte that does not stand before the one asked for last.
    pub(super) fn line(&mut self, at: usize) -> usize {
        self.line += self.text[self.at..at].bytes().filter(|byte| *byte == b'\n').count();
        self.at = at;
        self.line
    }
}
