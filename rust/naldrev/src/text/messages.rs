//! The messages of a file.

use std::ops::Range;

use super::error::Lines;
use super::lexer::{is_blank, Lexer};
use super::tree::terms;
use super::word::identifier_at;
use super::TextError;
use crate::Expression;

/// What is wrong with a line that begins as its paragraph does, where the layout is a guess.
pub(super) const BEGINS_AGAIN: &str =
    "this line begins as its paragraph does, so it may be a message of its own: tell the layout, lines or paragraphs";

/// How the messages of a file are separated.
#[derive(Clone, Copy, Debug, PartialEq, Eq, Hash)]
pub enum Layout {
    /// Each line is a message.
    Lines,
    /// Blank lines stand between messages.
    Paragraphs,
}

/// A message of a file.
#[derive(Clone, Debug, PartialEq, Eq)]
pub struct Message {
    /// The line on which its first term stands, from 1.
    pub line: usize,
    /// Its terms; there is at least one.
    pub terms: Expression,
}

/// Reads the messages of a file. Without a layout they are paragraphs if a blank line stands between two lines that hold terms, else each line
/// is a message; comments make no difference. Lines and paragraphs that hold only comments give no message. A paragraph that has a line beginning
/// with the same identifier as its first one is then an error, since blank lines may stand between groups of messages as well.
///
/// ```
/// use naldrev::messages;
/// let day = messages("* Monday\nSession Harbour-3 (kWh 42)\nSession Station-1 (kWh 17)\n", None)?;
/// assert_eq!(day.len(), 2);
/// assert_eq!(day[1].line, 3);
/// assert_eq!(day[1].terms.to_string(), "Session Station-1 (kWh 17)");
/// # Ok::<(), naldrev::TextError>(())
/// ```
pub fn messages(text: &str, layout: Option<Layout>) -> Result<Vec<Message>, TextError> {
    let (parts, end) = match layout.unwrap_or_else(|| layout_of(text)) {
        Layout::Lines => (lines(text).collect(), " before the end of its line, and each line is a message"),
        Layout::Paragraphs => (paragraphs(text), " before the end of its message"),
    };
    let mut numbers = Lines::new(text);
    let mut found = Vec::new();
    for part in parts {
        let mut lexer = Lexer::of_part(&text[..part.end], part.start, end);
        lexer.skip()?;
        if lexer.rest().is_empty() {
            continue;
        }
        let start = lexer.at();
        if let (None, Some(again)) = (layout, second_start(text, part)) {
            return Err(lexer.error(again, BEGINS_AGAIN));
        }
        let terms = terms(&mut lexer)?;
        if terms.is_empty() {
            return Err(lexer.error(start, "a message without terms cannot stand in a file of messages"));
        }
        found.push(Message { line: numbers.line(start), terms });
    }
    Ok(found)
}

/// The lines of a text, without their ends.
fn lines(text: &str) -> impl Iterator<Item = Range<usize>> + '_ {
    let mut next = 0;
    text.split('\n').map(move |line| {
        let start = next;
        next += line.len() + 1;
        start..start + line.len()
    })
}

/// What stands between blank lines.
fn paragraphs(text: &str) -> Vec<Range<usize>> {
    let mut found: Vec<Range<usize>> = Vec::new();
    let mut after_blank = true;
    for line in lines(text) {
        let blank = text[line.clone()].chars().all(is_blank);
        match found.last_mut() {
            _ if blank => {}
            Some(part) if !after_blank => part.end = line.end,
            _ => found.push(line),
        }
        after_blank = blank;
    }
    found
}

/// Where a paragraph has a further line that begins, in column one, with the same identifier as its first line; comments are passed over.
fn second_start(text: &str, paragraph: Range<usize>) -> Option<usize> {
    let part = &text[paragraph.clone()];
    let mut starts = lines(part).map(|line| line.start).filter(|at| !part[*at..].starts_with('*'));
    let first = identifier_at(&part[starts.next()?..])?;
    let again = |at: &usize| identifier_at(&part[*at..]).is_some_and(|word| word.eq_ignore_ascii_case(first));
    starts.find(again).map(|at| paragraph.start + at)
}

/// The layout of a file whose reader was told none.
fn layout_of(text: &str) -> Layout {
    let mut lexer = Lexer::new(text);
    let mut terms = false;
    // A comment that is not closed is an error of the message it stands in, and is found there.
    while let Ok(blank_line) = lexer.skip() {
        let rest = lexer.rest();
        if rest.is_empty() {
            break;
        }
        if terms && blank_line {
            return Layout::Paragraphs;
        }
        terms = true;
        lexer.go_to(lexer.at() + rest.find('\n').unwrap_or(rest.len()));
    }
    Layout::Lines
}
