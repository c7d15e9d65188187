//! Adding terms to a store, and reading them back.

use std::fmt;

use super::{Field, Flat, Run, Store, MAX_VALUES};
use crate::records::{level_of, level_words, spells_identifier, spells_name, spells_number, term};
use crate::records::{MAX_DEPTH, MAX_TERMS, MAX_TEXT, TERM_WIDTH};
use crate::text::Printer;
use crate::value::{Expression, UnknownKind, Value};
use crate::{Error, Refusal};

pub(super) fn is_identifier(text: &str) -> bool {
    text.len() <= MAX_TEXT && spells_identifier(text)
}

pub(super) fn is_number(text: &str) -> bool {
    text.len() <= MAX_TEXT && spells_number(text)
}

pub(super) fn is_name(text: &str) -> bool {
    text.len() <= MAX_TEXT && spells_name(text)
}

impl Store {
    fn put(&mut self, words: [u32; TERM_WIDTH]) -> Result<Run, Error> {
        self.term_room(1)?;
        let start = self.terms_used;
        self.terms[start * TERM_WIDTH..][..TERM_WIDTH].copy_from_slice(&words);
        self.terms_used += 1;
        Ok(self.run(start, 1))
    }

    /// Adds a term with a text; `good` says whether the text keeps the rule of its kind.
    fn put_text(&mut self, kind: u32, text: &str, good: bool) -> Result<Run, Error> {
        if !good {
            return Err(Refusal::BadTerm.into());
        }
        self.term_room(1)?;
        let [at, len] = self.names.place(text)?;
        self.put([kind, at, len, 0, 0])
    }

    /// Adds a character.
    pub fn add_char(&mut self, c: char) -> Result<Run, Error> {
        self.put([term::CHAR, u32::from(c), 0, 0, 0])
    }

    /// Adds an identifier. [`Refusal::BadTerm`] if the text is none.
    pub fn add_identifier(&mut self, text: &str) -> Result<Run, Error> {
        self.put_text(term::IDENTIFIER, text, is_identifier(text))
    }

    /// Adds a number. [`Refusal::BadTerm`] if the text is none.
    pub fn add_number(&mut self, text: &str) -> Result<Run, Error> {
        self.put_text(term::NUMBER, text, is_number(text))
    }

    /// Adds a bracket over a run of used terms. [`Refusal::PastEnd`] if the run is not within them, [`Refusal::BadTerm`] if the bracket would
    /// be over 255 deep.
    pub fn add_bracket(&mut self, contents: Run) -> Result<Run, Error> {
        self.check_run(contents)?;
        self.term_room(1)?;
        let (start, len) = contents.pair();
        let end = start.checked_add(len).filter(|n| *n <= self.terms_used).ok_or(Refusal::PastEnd)?;
        let inside = &self.terms[start * TERM_WIDTH..end * TERM_WIDTH];
        let deepest = inside.chunks_exact(TERM_WIDTH).filter(|t| t[0] == term::BRACKET).map(|t| t[3]).max().unwrap_or(0);
        if deepest as usize >= MAX_DEPTH {
            return Err(Refusal::BadTerm.into());
        }
        let [start, len] = contents.words()?;
        self.put([term::BRACKET, start, len, deepest + 1, 0])
    }

    /// Adds an unknown.
    pub fn add_unknown(&mut self, kind: UnknownKind, level: u64, index: u32) -> Result<Run, Error> {
        let [lower, upper] = level_words(level);
        self.put([term::UNKNOWN, kind as u32, lower, index, upper])
    }

    /// Adds values one after another, the contents of their brackets before them. If one is refused, none is added.
    pub fn add(&mut self, values: &[Value]) -> Result<Run, Error> {
        self.all_or_nothing(|store| store.add_level(values, 0))
    }

    fn add_level(&mut self, values: &[Value], depth: usize) -> Result<Run, Error> {
        if depth > MAX_DEPTH {
            return Err(Refusal::BadTerm.into());
        }
        let mut contents = Vec::new();
        for value in values {
            if let Value::Bracket(inside) = value {
                contents.push(self.add_level(inside, depth + 1)?);
            }
        }
        let mut contents = contents.into_iter();
        let start = self.terms_used;
        for value in values {
            match value {
                Value::Char(c) => self.add_char(*c)?,
                Value::Identifier(text) => self.add_identifier(text)?,
                Value::Number(text) => self.add_number(text)?,
                Value::Bracket(_) => self.add_bracket(contents.next().ok_or(Refusal::PastEnd)?)?,
                Value::Unknown { kind, level, index } => self.add_unknown(*kind, *level, *index)?,
            };
        }
        Ok(self.run(start, values.len()))
    }
}

// ---- reading back ----

/// A term's record as it is read, with its texts and contents still in the store.
enum Record<'a> {
    Char(char),
    Identifier(&'a str),
    Number(&'a str),
    Bracket(&'a [u32]),
    Unknown { kind: UnknownKind, level: u64, index: u32 },
}

/// The terms of a run, to be shown or read.
#[derive(Clone, Copy)]
pub struct Terms<'a> {
    store: &'a Store,
    run: Run,
}

impl<'a> Terms<'a> {
    /// The run.
    pub fn run(self) -> Run {
        self.run
    }

    /// How many terms there are, the contents of brackets not counted.
    pub fn len(self) -> usize {
        self.run.len()
    }

    /// Whether there is none.
    pub fn is_empty(self) -> bool {
        self.run.is_empty()
    }

    /// The terms with their contents. [`Error::TooLarge`] if they are over [`MAX_VALUES`].
    pub fn read(self) -> Result<Expression, Error> {
        let mut left = MAX_VALUES;
        self.store.read_level(self.words()?, 0, &mut left)
    }

    fn words(self) -> Result<&'a [u32], Refusal> {
        self.store.run_words(self.run.start(), self.run.len())
    }
}

/// As text: the whole store would be too much.
impl fmt::Debug for Terms<'_> {
    fn fmt(&self, f: &mut fmt::Formatter<'_>) -> fmt::Result {
        write!(f, "Terms({self})")
    }
}

/// In the text form. Terms of over [`MAX_VALUES`] values are cut there, and so are records that break their rule: `...` stands for the rest.
impl fmt::Display for Terms<'_> {
    fn fmt(&self, f: &mut fmt::Formatter<'_>) -> fmt::Result {
        let mut printer = Printer::new(f);
        let mut left = MAX_VALUES;
        let whole = match self.words() {
            Ok(words) => self.store.print_level(words, 0, &mut left, &mut printer)?,
            Err(_) => false,
        };
        if !whole {
            printer.word("...")?;
        }
        printer.finish()
    }
}

impl Store {
    /// A field's terms with their contents. [`Error::TooLarge`] if they are over [`MAX_VALUES`].
    pub fn values(&self, field: Field) -> Result<Expression, Error> {
        let mut work = vec![0; field.len().min(MAX_TERMS) * TERM_WIDTH];
        let mut left = MAX_VALUES;
        match self.flatten(field, &mut work)? {
            Flat::InStore(run) => self.terms(run)?.read(),
            Flat::InWork(count) => self.read_level(&work[..count * TERM_WIDTH], 0, &mut left),
        }
    }

    /// The terms of a run. [`Refusal::PastEnd`] if it is not within the used terms.
    pub fn terms(&self, run: Run) -> Result<Terms<'_>, Error> {
        self.check_run(run)?;
        let terms = Terms { store: self, run };
        terms.words()?;
        Ok(terms)
    }

    /// The words of a run of used terms.
    fn run_words(&self, start: usize, len: usize) -> Result<&[u32], Refusal> {
        // The count of words made elsewhere may pass them.
        let used = self.terms_used.min(self.terms.len() / TERM_WIDTH);
        let end = start.checked_add(len).filter(|end| *end <= used).ok_or(Refusal::PastEnd)?;
        Ok(&self.terms[start * TERM_WIDTH..end * TERM_WIDTH])
    }

    /// Reads terms that stand one after another. Their records are looked at as they come: words made elsewhere may hold anything.
    fn read_level(&self, words: &[u32], depth: usize, left: &mut usize) -> Result<Expression, Error> {
        if depth > MAX_DEPTH {
            return Err(Refusal::BadTerm.into());
        }
        let mut values = Vec::new();
        for term in words.chunks_exact(TERM_WIDTH) {
            *left = left.checked_sub(1).ok_or(Error::TooLarge)?;
            values.push(match self.record(term)? {
                Record::Char(c) => Value::Char(c),
                Record::Identifier(text) => Value::Identifier(text.into()),
                Record::Number(text) => Value::Number(text.into()),
                Record::Bracket(contents) => Value::Bracket(self.read_level(contents, depth + 1, left)?.0),
                Record::Unknown { kind, level, index } => Value::Unknown { kind, level, index },
            });
        }
        Ok(Expression(values))
    }

    /// Prints terms that stand one after another; whether it came to their end.
    fn print_level<W: fmt::Write>(
        &self,
        words: &[u32],
        depth: usize,
        left: &mut usize,
        printer: &mut Printer<'_, W>,
    ) -> Result<bool, fmt::Error> {
        for term in words.chunks_exact(TERM_WIDTH) {
            let Ok(record) = self.record(term) else { return Ok(false) };
            if *left == 0 {
                return Ok(false);
            }
            *left -= 1;
            match record {
                Record::Char(c) => printer.char(c)?,
                Record::Identifier(text) | Record::Number(text) => printer.word(text)?,
                Record::Unknown { kind, level, index } => printer.unknown(kind, level, index)?,
                Record::Bracket(contents) => {
                    printer.open()?;
                    let whole = depth < MAX_DEPTH && self.print_level(contents, depth + 1, left, printer)?;
                    if !whole {
                        return Ok(false);
                    }
                    printer.close()?;
                }
            }
        }
        Ok(true)
    }

    fn record(&self, words: &[u32]) -> Result<Record<'_>, Refusal> {
        let (a, b) = (words[1] as usize, words[2] as usize);
        if words[0] != term::UNKNOWN && words[4] != 0 {
            return Err(Refusal::BadTerm);
        }
        Ok(match words[0] {
            term::CHAR => Record::Char(char::from_u32(words[1]).ok_or(Refusal::BadTerm)?),
            term::IDENTIFIER => Record::Identifier(self.read_text(a, b)?),
            term::NUMBER => Record::Number(self.read_text(a, b)?),
            term::BRACKET => Record::Bracket(self.run_words(a, b)?),
            term::UNKNOWN => Record::Unknown {
                kind: *UnknownKind::ALL.get(a).ok_or(Refusal::BadTerm)?,
                level: level_of([words[2], words[4]]),
                index: words[3],
            },
            _ => return Err(Refusal::BadTerm),
        })
    }

    pub(super) fn read_text(&self, at: usize, len: usize) -> Result<&str, Refusal> {
        let bytes = self.names.bytes().get(at..at + len).ok_or(Refusal::BadTerm)?;
        std::str::from_utf8(bytes).map_err(|_| Refusal::BadTerm)
    }
}
