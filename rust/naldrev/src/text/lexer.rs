//! The tokens of a text.

use super::{kind_at, quoted, word, TextError};
use crate::{UnknownKind, VariableKind};

/// What is read, which decides what a word may be.
#[derive(Clone, Copy, PartialEq, Eq)]
pub(super) enum Mode {
    /// The terms of a message.
    Message,
    /// A pattern.
    Pattern,
    /// What is passed over: a right side, or what stands in a call or block.
    Passed,
}

impl Mode {
    /// What can start where a term was expected.
    pub(super) fn expected(self) -> &'static str {
        match self {
            Mode::Message => "expected an identifier, a number, characters in '..', an unknown or a bracket",
            Mode::Pattern | Mode::Passed => "expected an identifier, a number, characters in '..', a variable or a bracket",
        }
    }
}

#[derive(Clone, Copy)]
pub(super) enum Token<'a> {
    Char(char),
    Identifier(&'a str),
    Number(&'a str),
    Unknown { kind: UnknownKind, level: u64, index: u32 },
    Variable { kind: VariableKind, name: &'a str },
    Sign(char),
}

/// The signs that end a word, in every mode.
const SIGNS: [char; 8] = ['(', ')', '<', '>', '{', '}', '=', ';'];
/// The further signs of a sentence. In a pattern they end a word only where nothing follows them, so that the whole of 10:15 is shown as wrong.
const STOPS: [char; 2] = [',', ':'];
/// The further signs of what is passed over: Refal-5's functions of arithmetic. A minus inside a word belongs to it.
const ARITHMETIC: [char; 5] = ['+', '*', '/', '%', '?'];
const MINUS: char = '-';

const COMMENT: &str = "/*";
const COMMENT_END: &str = "*/";

pub(super) fn is_blank(c: char) -> bool {
    matches!(c, ' ' | '\t' | '\n' | '\r')
}

pub(super) struct Lexer<'a> {
    text: &'a str,
    at: usize,
    /// Where the quotes opened, for a place inside quotes.
    quote: Option<usize>,
    /// What ends with the text, for the errors: nothing, or words such as " before the end of its line".
    end: &'static str,
}

impl<'a> Lexer<'a> {
    pub(super) fn new(text: &'a str) -> Lexer<'a> {
        Lexer::of_part(text, 0, "")
    }

    /// The tokens from a byte on. Places are counted in the whole text, which ends where the part does.
    pub(super) fn of_part(text: &'a str, at: usize, end: &'static str) -> Lexer<'a> {
        Lexer { text, at, quote: None, end }
    }

    pub(super) fn at(&self) -> usize {
        self.at
    }

    pub(super) fn go_to(&mut self, at: usize) {
        self.at = at;
    }

    pub(super) fn rest(&self) -> &'a str {
        &self.text[self.at..]
    }

    pub(super) fn error(&self, at: usize, message: impl Into<String>) -> TextError {
        TextError::new(self.text, at, message)
    }

    /// A bracket, call, block or comment that the text ends in.
    pub(super) fn unclosed(&self, at: usize, what: &str) -> TextError {
        self.error(at, format!("{what} is not closed{}", self.end))
    }

    /// A sign that was read at a place where it has no meaning.
    pub(super) fn misplaced(&self, at: usize, sign: char, mode: Mode) -> TextError {
        let whole = if mode == Mode::Message { "message" } else { "pattern" };
        match sign {
            ')' | '>' | '}' => self.error(at, format!("{sign} closes nothing")),
            _ => self.error(at, format!("{sign} has no place in a {whole}; {}", mode.expected())),
        }
    }

    /// Goes past blanks and comments; whether a blank line was among them.
    pub(super) fn skip(&mut self) -> Result<bool, TextError> {
        let mut blank_line = false;
        let mut only_blanks = self.column_one();
        loop {
            let rest = self.rest();
            if rest.starts_with('*') && self.column_one() {
                self.at += rest.find('\n').unwrap_or(rest.len());
                only_blanks = false;
            } else if rest.starts_with(COMMENT) {
                let inside = COMMENT.len();
                let length = rest[inside..].find(COMMENT_END).ok_or_else(|| self.unclosed(self.at, "the comment"))?;
                self.at += inside + length + COMMENT_END.len();
                only_blanks = false;
            } else if rest.starts_with('\n') {
                self.at += 1;
                blank_line |= only_blanks;
                only_blanks = true;
            } else if rest.starts_with(is_blank) {
                self.at += 1;
            } else {
                return Ok(blank_line);
            }
        }
    }

    fn column_one(&self) -> bool {
        self.at == 0 || self.text.as_bytes()[self.at - 1] == b'\n'
    }

    /// The next token and where it starts; nothing at the end.
    pub(super) fn next(&mut self, mode: Mode) -> Result<Option<(usize, Token<'a>)>, TextError> {
        loop {
            if let Some(opened) = self.quote {
                let at = self.at;
                let (c, length) = quoted::next(self.rest()).map_err(|wrong| self.quote_error(opened, wrong))?;
                self.at += length;
                match c {
                    Some(c) => return Ok(Some((at, Token::Char(c)))),
                    None => self.quote = None,
                }
                continue;
            }
            self.skip()?;
            let Some(first) = self.rest().chars().next() else {
                return Ok(None);
            };
            if first != '\'' {
                return self.unquoted(first, mode).map(Some);
            }
            self.quote = Some(self.at);
            self.at += 1;
        }
    }

    fn quote_error(&self, opened: usize, wrong: quoted::Wrong) -> TextError {
        match wrong {
            quoted::Wrong::Unclosed => self.error(opened, "the quote is not closed on its line; a line end is written \\n"),
            quoted::Wrong::Escape(message) => self.error(self.at, message),
        }
    }

    /// The token of a text that starts with neither a blank nor a quote.
    fn unquoted(&mut self, first: char, mode: Mode) -> Result<(usize, Token<'a>), TextError> {
        let at = self.at;
        let rest = self.rest();
        let sign = SIGNS.contains(&first)
            || mode != Mode::Message && STOPS.contains(&first)
            || mode == Mode::Passed && (first == MINUS || ARITHMETIC.contains(&first) && !word::is_unknown(rest));
        let read = if sign {
            Ok((Token::Sign(first), first.len_utf8()))
        } else if first == '"' {
            Err(word::double_quoted(rest, mode))
        } else if mode != Mode::Message && kind_at(rest).is_some() {
            // The end of the word is looked for in an error only: variables may be run together, and each would look for it again.
            let read = word::variable(rest).filter(|(_, length)| ends_variable(&rest[*length..], mode));
            read.ok_or_else(|| word::no_variable(word_of(rest, mode)))
        } else {
            word::read(word_of(rest, mode), mode)
        };
        let (token, length) = read.map_err(|message| self.error(at, message))?;
        self.at += length;
        Ok((at, token))
    }
}

/// Whether a word ends before this text: at a blank, a quote, a sign or a comment.
fn ends_word(rest: &str, mode: Mode) -> bool {
    let passed = mode == Mode::Passed && (rest.starts_with(STOPS) || rest.starts_with(ARITHMETIC));
    rest.is_empty()
        || rest.starts_with(is_blank)
        || rest.starts_with(['\'', '"'])
        || rest.starts_with(SIGNS)
        || rest.starts_with(COMMENT)
        || passed
}

fn ends_variable(rest: &str, mode: Mode) -> bool {
    ends_word(rest, mode) || rest.starts_with(STOPS) || kind_at(rest).is_some()
}

/// Whether a text starts with a digit and has a `:` or `,` between two digits here: 10:15 is shown as wrong in what is passed over too.
fn between_digits(text: &str, at: usize) -> bool {
    let digit = |at: usize| text.as_bytes().get(at).is_some_and(u8::is_ascii_digit);
    text[at..].starts_with(STOPS) && digit(0) && digit(at - 1) && digit(at + 1)
}

/// The word that a text starts with.
fn word_of(text: &str, mode: Mode) -> &str {
    let mut places = text.char_indices().skip(1).map(|(at, _)| at);
    let end = places.find(|at| ends_word(&text[*at..], mode) && !between_digits(text, *at)).unwrap_or(text.len());
    let word = &text[..end];
    if mode == Mode::Message {
        return word;
    }
    word.trim_end_matches(STOPS)
}
