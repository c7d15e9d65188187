//! Inputs for both sides, each written once as a text: the port's words, and the same terms as values of the Rust.
use crate::plain::values::values;
use crate::port::{self, Call, Field, Store};
use naldrev::TERM_WIDTH;
use original::value::{Slice, ViewField};
use refal_ast::{Symbol, Term, TermKind, Variable, VariableKind};
use std::collections::HashMap;

/// A piece of a text: a bracket's side, a char of a quoted part, an identifier, a number or a variable.
enum Token<'a> {
    Open,
    Close,
    Char(char),
    Identifier(&'a str),
    Number(&'a str),
    Variable(VariableKind, &'a str),
}

fn tokens(text: &str) -> Vec<Token<'_>> {
    let mut found = Vec::new();
    for (i, part) in text.split('\'').enumerate() {
        if i % 2 == 1 {
            found.extend(part.chars().map(Token::Char));
            continue;
        }
        for piece in part.split_inclusive(['(', ')', ' ']) {
            let word = piece.trim_end_matches(['(', ')', ' ']);
            if !word.is_empty() {
                found.push(token(word));
            }
            match piece.chars().last() {
                Some('(') => found.push(Token::Open),
                Some(')') => found.push(Token::Close),
                _ => {}
            }
        }
    }
    found
}

fn token(word: &str) -> Token<'_> {
    match word.split_once('.') {
        Some(("s", name)) => Token::Variable(VariableKind::Symbol, name),
        Some(("t", name)) => Token::Variable(VariableKind::Term, name),
        Some((_, name)) => Token::Variable(VariableKind::Expression, name),
        None if word.starts_with(|c: char| c.is_ascii_digit()) => Token::Number(word),
        None => Token::Identifier(word),
    }
}

/// A pattern as each side takes it.
pub struct Pattern {
    pub words: Vec<u32>,
    pub terms: Vec<Term>,
}

/// Names and terms as they are written; every name stands once.
#[derive(Default)]
pub struct Draft {
    names: Vec<u8>,
    offsets: HashMap<String, u32>,
    terms: Vec<u32>,
}

impl Draft {
    /// A record of a pattern, and the words of a term but for its fifth.
    fn named(&mut self, kind: u32, name: &str) -> [u32; 4] {
        let end = self.names.len() as u32;
        let offset = *self.offsets.entry(name.to_string()).or_insert(end);
        if offset == end {
            self.names.extend(name.bytes());
        }
        [kind, offset, name.len() as u32, 0]
    }

    /// The records of a level; contents of brackets go to the store, before the brackets.
    fn level(&mut self, tokens: &mut std::vec::IntoIter<Token>) -> Vec<[u32; TERM_WIDTH]> {
        let mut records = Vec::new();
        while let Some(token) = tokens.next() {
            let [kind, a, b, c] = match token {
                Token::Char(c) => [0, c as u32, 0, 0],
                Token::Identifier(name) => self.named(1, name),
                Token::Number(digits) => self.named(2, digits),
                Token::Open => {
                    let inside = self.level(tokens);
                    let depth = 1 + inside.iter().filter(|record| record[0] == 3).map(|record| record[3]).max().unwrap_or(0);
                    let (start, len) = self.append(&inside);
                    [3, start as u32, len as u32, depth]
                }
                Token::Close => break,
                Token::Variable(..) => panic!("a variable is no term"),
            };
            // The fifth word is an unknown's alone.
            records.push([kind, a, b, c, 0]);
        }
        records
    }

    fn append(&mut self, records: &[[u32; TERM_WIDTH]]) -> (usize, usize) {
        let start = self.terms.len() / TERM_WIDTH;
        self.terms.extend(records.iter().flatten());
        (start, records.len())
    }

    /// Writes the terms of a text after those that are there, and says where its run is.
    pub fn run(&mut self, text: &str) -> (usize, usize) {
        let records = self.level(&mut tokens(text).into_iter());
        self.append(&records)
    }

    pub fn pattern(&mut self, text: &str) -> Pattern {
        let mut words: Vec<u32> = Vec::new();
        let mut open = Vec::new();
        for token in tokens(text) {
            let number = words.len() as u32 / 4;
            let record = match token {
                Token::Char(c) => [0, c as u32, 0, 0],
                Token::Identifier(name) => self.named(1, name),
                Token::Number(digits) => self.named(2, digits),
                Token::Variable(kind, name) => self.named(5 + kind as u32, name),
                Token::Open => {
                    open.push(number);
                    [3, 0, 0, 0]
                }
                Token::Close => {
                    let start = open.pop().expect("a bracket is closed after it was opened");
                    words[4 * start as usize + 1] = number;
                    [4, start, 0, 0]
                }
            };
            words.extend(record);
        }
        Pattern { words, terms: pattern_level(&mut tokens(text).into_iter()) }
    }

    /// Both sides' stores, the port's with room for more terms and nodes.
    pub fn sides(self, room: usize, nodes: usize) -> Sides {
        let arena = Slice::owned(values(&self.names, &self.terms));
        let (used, mut terms) = (self.terms.len() / TERM_WIDTH, self.terms);
        terms.resize(TERM_WIDTH * (used + room), 0);
        let store = Store { names: self.names, terms, terms_used: used, nodes: vec![0; 6 * (1 + nodes)], nodes_used: 1 };
        Sides { store, arena }
    }
}

fn pattern_level(tokens: &mut std::vec::IntoIter<Token>) -> Vec<Term> {
    let mut made = Vec::new();
    while let Some(token) = tokens.next() {
        let kind = match token {
            Token::Char(c) => TermKind::Symbol(Symbol::Char(c)),
            Token::Identifier(name) => TermKind::Symbol(Symbol::Identifier(name.into())),
            Token::Number(digits) => TermKind::Symbol(Symbol::Number(digits.into())),
            Token::Variable(kind, name) => TermKind::Variable(Variable { kind, name: name.into() }),
            Token::Open => TermKind::Bracket(pattern_level(tokens)),
            Token::Close => break,
        };
        made.push(Term { kind });
    }
    made
}

/// The port's stores, and the Rust's arena with the same terms.
pub struct Sides {
    pub store: Store,
    arena: Slice,
}

/// A field that was made alike on both sides.
#[derive(Clone)]
pub struct Both {
    pub field: Field,
    pub plain: ViewField,
}

impl Sides {
    /// A field of runs.
    pub fn field(&mut self, runs: &[(usize, usize)]) -> Both {
        let words = runs.iter().flat_map(|(start, len)| [*start as u32, *len as u32]).collect();
        let mut out = [0; 2];
        assert_eq!(port::build(&mut self.store, &Call::FromRuns(words), &mut out), 0, "from_runs");
        let slices = runs.iter().map(|(start, len)| self.arena.sub(*start, *len)).collect();
        Both { field: Field { node: out[0], len: out[1] }, plain: ViewField::from_runs(slices) }
    }

    /// A run cut into so many fields of one length.
    pub fn pieces(&mut self, (start, len): (usize, usize), count: usize) -> Vec<Both> {
        let each = len / count;
        (0..count).map(|i| self.field(&[(start + i * each, each)])).collect()
    }
}
