//! Patterns and starting bindings as words for one store.

use super::terms::{is_identifier, is_name, is_number};
use super::{Run, Stamp, Store};
use crate::pattern::{Item, Variable, VariableKind};
use crate::records::{item, term, BINDING_WIDTH, MAX_NESTING, PATTERN_WIDTH};
use crate::{Error, Refusal};

/// A pattern as words of the store that made it: its texts are offsets in the store's names.
#[derive(Clone, Debug, PartialEq, Eq)]
pub struct Prepared {
    words: Vec<u32>,
    stamp: Stamp,
}

impl Prepared {
    /// Its words, four to a record.
    pub fn words(&self) -> &[u32] {
        &self.words
    }
}

/// Starting bindings as words of the store that made them.
#[derive(Clone, Debug, PartialEq, Eq)]
pub struct Bindings {
    words: Vec<u32>,
    stamp: Stamp,
}

impl Bindings {
    /// No bindings, for every store.
    pub const NONE: Bindings = Bindings { words: Vec::new(), stamp: Stamp::ANY };

    /// Their words, five to a record.
    pub fn words(&self) -> &[u32] {
        &self.words
    }
}

/// Where a start and a length end.
fn end(start: u32, len: u32) -> usize {
    start as usize + len as usize
}

impl Store {
    /// Makes the words of a pattern for this store, whose names get its texts. [`Refusal::BadPattern`] if a text breaks its rule or brackets nest
    /// over 32 deep.
    pub fn prepare(&mut self, pattern: &[Item]) -> Result<Prepared, Error> {
        self.all_or_nothing(|store| {
            let mut words = Vec::new();
            store.pattern_level(pattern, 0, &mut words)?;
            Ok(store.pattern_of_words(words))
        })
    }

    /// A pattern of words for this store, four to a record. The call that uses it checks them.
    pub fn pattern_of_words(&self, words: Vec<u32>) -> Prepared {
        Prepared { words, stamp: self.history.now() }
    }

    fn pattern_level(&mut self, items: &[Item], nesting: usize, words: &mut Vec<u32>) -> Result<(), Error> {
        if nesting > MAX_NESTING {
            return Err(Refusal::BadPattern.into());
        }
        for part in items {
            match part {
                Item::Char(c) => words.extend([term::CHAR, u32::from(*c), 0, 0]),
                Item::Identifier(text) => self.pattern_text(term::IDENTIFIER, text, is_identifier(text), words)?,
                Item::Number(text) => self.pattern_text(term::NUMBER, text, is_number(text), words)?,
                Item::Bracket(contents) => {
                    let open = words.len();
                    words.extend([item::OPEN, 0, 0, 0]);
                    self.pattern_level(contents, nesting + 1, words)?;
                    let number = |at: usize| u32::try_from(at / PATTERN_WIDTH).map_err(|_| Refusal::Uneven);
                    words[open + 1] = number(words.len())?;
                    words.extend([item::CLOSE, number(open)?, 0, 0]);
                }
                Item::Variable(v) => self.pattern_text(v.kind.code(), &v.name, is_name(&v.name), words)?,
                Item::Call => words.extend([item::CALL, 0, 0, 0]),
                Item::Block => words.extend([item::BLOCK, 0, 0, 0]),
            }
        }
        Ok(())
    }

    fn pattern_text(&mut self, kind: u32, text: &str, good: bool, words: &mut Vec<u32>) -> Result<(), Error> {
        if !good {
            return Err(Refusal::BadPattern.into());
        }
        let [at, len] = self.names.place(text)?;
        words.extend([kind, at, len, 0]);
        Ok(())
    }

    /// Starting bindings, whose names go into the names of this store. [`Refusal::BadBinding`] if a name breaks its rule.
    pub fn bindings(&mut self, bindings: &[(Variable, Run)]) -> Result<Bindings, Error> {
        self.all_or_nothing(|store| {
            let mut words = Vec::with_capacity(bindings.len() * BINDING_WIDTH);
            for (variable, run) in bindings {
                if !is_name(&variable.name) {
                    return Err(Refusal::BadBinding.into());
                }
                store.check_run(*run)?;
                let [at, len] = store.names.place(&variable.name)?;
                let [start, count] = run.words()?;
                words.extend([variable.kind.code(), at, len, start, count]);
            }
            Ok(store.bindings_of_words(words))
        })
    }

    /// Bindings of words for this store, five to a record. The call that uses them checks them.
    pub fn bindings_of_words(&self, words: Vec<u32>) -> Bindings {
        Bindings { words, stamp: self.history.now() }
    }

    /// Checks that both are of this store, and that the texts and runs they rest on are still there.
    pub(super) fn check_request(&self, pattern: &Prepared, bindings: &Bindings) -> Result<(), Error> {
        let has_text = |kind: u32| matches!(kind, term::IDENTIFIER | term::NUMBER) || VariableKind::from_code(kind).is_some();
        let texts =
            |words: &[u32]| words.chunks_exact(PATTERN_WIDTH).filter(|r| has_text(r[0])).map(|r| end(r[1], r[2])).max().unwrap_or(0);
        self.history.check(pattern.stamp, |floor| texts(&pattern.words) <= floor.names)?;
        let records = || bindings.words.chunks_exact(BINDING_WIDTH);
        self.history.check(bindings.stamp, |floor| records().all(|r| end(r[1], r[2]) <= floor.names && end(r[3], r[4]) <= floor.terms))
    }
}
