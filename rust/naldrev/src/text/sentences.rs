//! Sentences: patterns with names and right sides.

use std::collections::HashMap;

use super::error::Lines;
use super::lexer::{Lexer, Mode, Token};
use super::tree::{pass_over, PatternTree, COLON};
use super::word::{identifier_at, shown};
use super::{TextError, MAX_TEXT};
use crate::Pattern;

const CALL: &str = "a call in a left side: such a sentence can never fit";
const BLOCK: &str = "a block in a left side: such a sentence can never fit, and sentences stand without a function around them";

/// A sentence: its left side, which is tried on messages. Of its right side nothing is kept.
#[derive(Clone, Debug, PartialEq, Eq)]
pub struct Sentence {
    /// Its name, if it has one.
    pub name: Option<String>,
    /// The line on which it starts, from 1.
    pub line: usize,
    /// Its left side.
    pub left: Pattern,
}

/// Reads sentences, each `NAME: PATTERN = RIGHT;`, where the name, the right side with its `=`, and the last `;` may be missing.
///
/// ```
/// use naldrev::sentences;
/// let prices = sentences("Night: Session s.point (Tariff Night) e.rest = <Price s.point 25>;\nSession e.rest;")?;
/// assert_eq!(prices[0].name.as_deref(), Some("Night"));
/// assert_eq!(prices[0].left.to_string(), "Session s.point (Tariff Night) e.rest");
/// assert_eq!((prices[1].name.as_deref(), prices[1].line), (None, 2));
/// # Ok::<(), naldrev::TextError>(())
/// ```
pub fn sentences(text: &str) -> Result<Vec<Sentence>, TextError> {
    let mut lexer = Lexer::new(text);
    let mut numbers = Lines::new(text);
    let mut names = HashMap::new();
    let mut found = Vec::new();
    loop {
        lexer.skip()?;
        if lexer.rest().is_empty() {
            return Ok(found);
        }
        let start = lexer.at();
        let line = numbers.line(start);
        let name = name(&mut lexer)?;
        if let Some(known) = name.and_then(|name| names.insert(name.to_ascii_lowercase(), line)) {
            return Err(lexer.error(start, format!("the sentence on line {known} has this name too")));
        }
        let left = sides(&mut lexer, start)?;
        found.push(Sentence { name: name.map(String::from), line, left });
    }
}

/// Reads a name with its colon, if there is one.
fn name<'a>(lexer: &mut Lexer<'a>) -> Result<Option<&'a str>, TextError> {
    let start = lexer.at();
    let Some(name) = identifier_at(lexer.rest()) else {
        return Ok(None);
    };
    lexer.go_to(start + name.len());
    lexer.skip()?;
    if !lexer.rest().starts_with(':') {
        lexer.go_to(start);
        return Ok(None);
    }
    if name.len() > MAX_TEXT {
        return Err(lexer.error(start, format!("the name of a sentence has at most {MAX_TEXT} characters: {}", shown(name))));
    }
    lexer.go_to(lexer.at() + 1);
    Ok(Some(name))
}

/// Reads both sides and the `;`, for the left side.
fn sides(lexer: &mut Lexer, start: usize) -> Result<Pattern, TextError> {
    let mut pattern = PatternTree::new();
    let mut right = false;
    while let Some((at, token)) = lexer.next(Mode::Pattern)? {
        match token {
            Token::Sign('=') => {
                right = true;
                break;
            }
            Token::Sign(';') => break,
            Token::Sign(',') => return Err(lexer.error(at, "conditions are not read: a sentence is PATTERN = RIGHT;")),
            Token::Sign(':') => return Err(lexer.error(at, COLON)),
            Token::Sign('<') => return Err(lexer.error(at, CALL)),
            Token::Sign('{') => return Err(lexer.error(at, BLOCK)),
            _ => pattern.take(lexer, at, token)?,
        }
    }
    let left = pattern.finish(lexer)?;
    if right {
        pass_over(lexer, None)?;
    } else if left.is_empty() {
        return Err(lexer.error(start, "a sentence without a pattern; an empty left side is written with ="));
    }
    Ok(left)
}
