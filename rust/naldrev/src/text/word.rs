//! Words: identifiers, numbers, unknowns and variables; and what to write instead of a word that is none of these.

use std::borrow::Cow;
use std::str::FromStr;

use super::lexer::{is_blank, Mode, Token};
use super::printer::write_shown;
use super::{kind_at, MAX_TEXT};
use crate::records::{is_name_byte, spells_identifier, spells_number};
use crate::{Expression, Value};

/// The most characters of a word that an error shows.
const SHOWN: usize = 60;

/// A token with how many bytes it is written in, or what is wrong with the word.
type Read<'a> = Result<(Token<'a>, usize), String>;

/// How many bytes a name has that the text starts with. A name ends where a variable begins: `Items.1` is `Item`, then `s.1`.
fn name_length(text: &str) -> usize {
    let ends = |(at, byte): (usize, u8)| !is_name_byte(byte) || kind_at(&text[at..]).is_some();
    // All bytes before the end found are ASCII, so each of them starts a character.
    text.bytes().enumerate().position(ends).unwrap_or(text.len())
}

/// The identifier that a text starts with, which is followed by no name byte.
pub(super) fn identifier_at(text: &str) -> Option<&str> {
    let end = text.bytes().position(|byte| !is_name_byte(byte)).unwrap_or(text.len());
    Some(&text[..end]).filter(|word| spells_identifier(word))
}

/// Whether an unknown was meant.
pub(super) fn is_unknown(word: &str) -> bool {
    word.strip_prefix('?').is_some_and(|rest| kind_at(rest).is_some())
}

/// Whether a word is `s`, `t` or `e` and one letter or digit, which in Refal-5 is a variable.
fn is_old_variable(word: &str) -> bool {
    matches!(word.as_bytes(), [b's' | b't' | b'e', second] if second.is_ascii_alphanumeric())
}

/// An identifier as a pattern has it: `s1` is written `S1`, which matches the same.
pub(super) fn pattern_identifier(word: &str) -> Cow<'_, str> {
    if is_old_variable(word) {
        return word.to_ascii_uppercase().into();
    }
    word.into()
}

/// The variable that a text starts with; nothing if it has no name, or one that is too long.
pub(super) fn variable(text: &str) -> Option<(Token<'_>, usize)> {
    let (kind, _) = kind_at(text)?;
    let after_dot = &text[2..];
    let name = &after_dot[..name_length(after_dot)];
    (1..=MAX_TEXT).contains(&name.len()).then_some((Token::Variable { kind, name }, 2 + name.len()))
}

/// What is wrong with a word that starts with `s.`, `t.` or `e.`.
pub(super) fn no_variable(word: &str) -> String {
    let (letter, after_dot) = word.split_at(2);
    match name_length(after_dot) {
        0 => format!("{letter} has no name"),
        length if length > MAX_TEXT => too_long("the name of a variable", length),
        _ => format!("{} is no variable; a name has letters, digits, - and _", shown(word)),
    }
}

fn too_long(what: &str, length: usize) -> String {
    format!("{what} has at most {MAX_TEXT} characters, and this one has {length}")
}

/// Reads a whole word. In a pattern it does not start with a variable.
pub(super) fn read(word: &str, mode: Mode) -> Read<'_> {
    if is_unknown(word) {
        return unknown(word, mode);
    }
    let (token, what) = if spells_identifier(word) {
        (Token::Identifier(word), "an identifier")
    } else if spells_number(word) {
        (Token::Number(word), "a number")
    } else {
        return Err(no_word(word, mode));
    };
    if word.len() > MAX_TEXT {
        return Err(too_long(what, word.len()));
    }
    if mode != Mode::Message && is_old_variable(word) {
        let (letter, name) = word.split_at(1);
        return Err(format!("write {letter}.{name} for the variable, or {} for the identifier: case is ignored", pattern_identifier(word)));
    }
    Ok((token, word.len()))
}

/// An unknown, such as `?s.1.2`.
fn unknown(word: &str, mode: Mode) -> Read<'_> {
    if mode != Mode::Message {
        return Err(format!("{} is an unknown, and only messages have unknowns", shown(word)));
    }
    let rest = &word[1..];
    let parts = kind_at(rest).zip(rest[2..].split_once('.'));
    let token = parts.and_then(|((_, kind), (level, index))| Some(Token::Unknown { kind, level: number(level)?, index: number(index)? }));
    token.map(|token| (token, word.len())).ok_or_else(|| {
        let ranges = format!("LEVEL a number from 0 to {}, INDEX from 0 to {}", u64::MAX, u32::MAX);
        format!("{} is no unknown; one is written ?{}.LEVEL.INDEX, {ranges}", shown(word), &rest[..1])
    })
}

/// The number that digits say, if it is no larger than the largest of its type.
fn number<T: FromStr>(digits: &str) -> Option<T> {
    // `parse` would take a plus sign as well.
    digits.bytes().all(|byte| byte.is_ascii_digit()).then(|| digits.parse().ok())?
}

/// What is wrong with a word that is neither an identifier nor a number.
fn no_word(word: &str, mode: Mode) -> String {
    if kind_at(word).is_some() {
        return format!("a message has no variables; as characters {} is written {}", shown(word), quoted(word));
    }
    let small = word.to_ascii_lowercase();
    if mode != Mode::Message && kind_at(&small).is_some() {
        return format!("the letter of a variable is small: write {}{}", &small[..1], shown(&word[1..]));
    }
    match word.chars().next() {
        Some('*') => format!("a comment has its * in column one; as characters {} is written {}", shown(word), quoted(word)),
        Some(c) if !(c.is_alphanumeric() || c.is_ascii_graphic()) => {
            format!("{} starts no term; {}", shown(&c.to_string()), mode.expected())
        }
        _ => format!("{} is no term; as characters it is written {}", shown(word), quoted(word)),
    }
}

/// What is wrong with the text in double quotes that the text starts with, and what to write instead.
pub(super) fn double_quoted(text: &str, mode: Mode) -> String {
    let line = text[1..].lines().next().unwrap_or_default();
    let Some((inner, _)) = line.split_once('"') else {
        return "double quotes are not read; characters stand in single quotes".into();
    };
    let identifier = |word: &str| if mode == Mode::Message { word.to_string() } else { pattern_identifier(word).into_owned() };
    if spells_identifier(inner) {
        return format!("an identifier stands without double quotes: write {}", shown(&identifier(inner)));
    }
    let joined = inner.replace(is_blank, "-");
    if spells_identifier(&joined) {
        return format!("identifiers have no blanks: write {}, or {} for characters", shown(&identifier(&joined)), quoted(inner));
    }
    format!("double quotes are not read; as characters the text is written {}", quoted(inner))
}

/// A text as an error shows it: on one line, and not too long.
pub(super) fn shown(text: &str) -> String {
    let mut line = String::new();
    for c in text.chars().take(SHOWN) {
        // Writing to a string cannot fail.
        let _ = write_shown(&mut line, c);
    }
    if text.chars().nth(SHOWN).is_some() {
        line.push_str("..");
    }
    line
}

/// A text in quotes, as an error suggests it.
fn quoted(text: &str) -> String {
    if text.is_empty() || text.chars().nth(SHOWN).is_some() {
        return "'..'".into();
    }
    Expression(Value::chars(text)).to_string()
}
