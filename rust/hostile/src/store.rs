//! Stores within the rules, written record by record or by the library's own calls.
use crate::raw;
use naldrev::{MAX_NODES, MAX_TERMS, NODE_WIDTH, TERM_WIDTH};

/// Kinds of terms.
const CHAR: u32 = 0;
const IDENTIFIER: u32 = 1;
const NUMBER: u32 = 2;
const BRACKET: u32 = 3;
const UNKNOWN: u32 = 4;

/// Kinds of nodes.
const CONS: u32 = 1;
const CONCAT: u32 = 2;

/// Terms that a field has at most; a node's reach is cut off there.
const MAX_LENGTH: usize = 65_536;

/// Unused words, which may hold anything. They are written before a call is timed, so that no call is the first to touch a page.
pub const UNUSED: u32 = 7;

pub type TermWords = [u32; TERM_WIDTH];

#[derive(Clone, Copy, Debug, PartialEq)]
pub struct Run {
    pub start: usize,
    pub len: usize,
}

impl Run {
    /// A single term.
    pub fn one(start: usize) -> Self {
        Self { start, len: 1 }
    }
}

#[derive(Clone, Copy, Debug, PartialEq)]
pub struct Field {
    pub node: usize,
    pub len: usize,
}

impl Field {
    /// The first so many terms.
    pub fn take(self, len: usize) -> Self {
        assert!(len <= self.len, "take of {len} of {} terms", self.len);
        Self { node: self.node, len }
    }
}

/// Lent slices with their used counts; room for as many records as the limits allow.
pub struct Store {
    pub names: Vec<u8>,
    pub terms: Vec<u32>,
    pub terms_used: usize,
    pub nodes: Vec<u32>,
    pub nodes_used: usize,
}

pub fn char_words(c: char) -> TermWords {
    [CHAR, c as u32, 0, 0, 0]
}

/// An expression unknown by its level and index.
pub fn unknown_words(level: u64, index: u32) -> TermWords {
    [UNKNOWN, 2, level as u32, index, (level >> 32) as u32]
}

/// An identifier by the offset and the length of its text.
pub fn identifier_words(offset: usize, len: usize) -> TermWords {
    [IDENTIFIER, offset as u32, len as u32, 0, 0]
}

/// A number by the offset and the length of its text.
pub fn number_words(offset: usize, len: usize) -> TermWords {
    [NUMBER, offset as u32, len as u32, 0, 0]
}

impl Store {
    /// No terms, and node 0 alone.
    pub fn new(names: &[u8]) -> Self {
        let mut nodes = vec![UNUSED; MAX_NODES * NODE_WIDTH];
        nodes[..NODE_WIDTH].fill(0);
        Self { names: names.to_vec(), terms: vec![UNUSED; MAX_TERMS * TERM_WIDTH], terms_used: 0, nodes, nodes_used: 1 }
    }

    // ---- terms ----

    pub fn term(&mut self, words: TermWords) -> usize {
        let number = self.terms_used;
        self.terms[number * TERM_WIDTH..][..TERM_WIDTH].copy_from_slice(&words);
        self.terms_used += 1;
        number
    }

    pub fn term_words(&self, number: usize) -> &[u32] {
        &self.terms[number * TERM_WIDTH..][..TERM_WIDTH]
    }

    /// Terms one after another.
    pub fn run(&mut self, terms: impl IntoIterator<Item = TermWords>) -> Run {
        let start = self.terms_used;
        for words in terms {
            self.term(words);
        }
        Run { start, len: self.terms_used - start }
    }

    /// A bracket; its depth is 1 more than that of the deepest bracket in it, which the caller knows.
    pub fn bracket(&mut self, contents: Run, depth: usize) -> usize {
        self.term([BRACKET, contents.start as u32, contents.len as u32, depth as u32, 0])
    }

    /// So many brackets of one depth, each with the contents that its place has.
    pub fn brackets(&mut self, count: usize, depth: usize, contents: impl Fn(usize) -> Run) -> Run {
        let start = self.terms_used;
        for i in 0..count {
            self.bracket(contents(i), depth);
        }
        Run { start, len: count }
    }

    // ---- nodes ----

    fn node(&mut self, words: [u32; NODE_WIDTH]) -> usize {
        let number = self.nodes_used;
        self.nodes[number * NODE_WIDTH..][..NODE_WIDTH].copy_from_slice(&words);
        self.nodes_used += 1;
        number
    }

    pub fn height(&self, node: usize) -> usize {
        self.nodes[node * NODE_WIDTH + 4] as usize
    }

    pub fn reach(&self, node: usize) -> usize {
        self.nodes[node * NODE_WIDTH + 5] as usize
    }

    /// A Cons of one term, with tail Nil.
    pub fn cons(&mut self, term: usize) -> usize {
        self.node([CONS, term as u32, 1, 0, 1, 1])
    }

    /// A Concat of so many terms of the left, and the right.
    pub fn concat(&mut self, left: usize, len: usize, right: usize) -> usize {
        let height = 1 + self.height(left).max(self.height(right));
        let reach = (len + self.reach(right)).min(MAX_LENGTH);
        self.node([CONCAT, left as u32, len as u32, right as u32, height as u32, reach as u32])
    }

    // ---- fields made by calls ----

    pub fn field_of(&mut self, runs: &[Run]) -> Field {
        let words: Vec<u32> = runs.iter().flat_map(|run| [run.start as u32, run.len as u32]).collect();
        raw::from_runs(self, &words)
    }

    /// A join that has to make a single node, the Concat of both sides as they are.
    pub fn join(&mut self, left: Field, right: Field) -> Field {
        let next = self.nodes_used;
        let made = raw::join(self, left, right);
        assert_eq!((made.node, self.nodes_used), (next, next + 1), "a join that makes one node");
        made
    }

    pub fn rest(&mut self, field: Field, count: usize) -> Field {
        raw::rest(self, field, count)
    }
}
