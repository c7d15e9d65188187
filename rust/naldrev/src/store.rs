//! The store: names, terms and nodes; the calls on them stand in the modules below it.

use std::fmt;

use crate::records::{MAX_NODES, MAX_TERMS, NODE_WIDTH, TERM_WIDTH};
use crate::{ffi, Error, Refusal};

mod fields;
mod handles;
mod matching;
mod names;
mod patterns;
mod terms;
#[cfg(test)]
mod tests;

use handles::{History, Stamp};
use names::Names;

pub use handles::{Field, Mark, Run};
pub use matching::{Candidate, Listing};
pub use patterns::{Bindings, Prepared};
pub use terms::Terms;

/// The most values, brackets and their contents counted, that are read from a store at a time. Brackets may share their contents, so the tree of a
/// small store can be far larger than the store.
pub const MAX_VALUES: usize = 1 << 20;

/// Where [`Store::flatten`] found or put a field's terms.
#[derive(Clone, Copy, Debug, PartialEq, Eq)]
pub enum Flat {
    /// A run of the store.
    InStore(Run),
    /// So many records at the start of the work buffer.
    InWork(usize),
}

/// The room of a store, in records: what it has at first, and how far it grows when a call finds no room. Numbers past [`MAX_TERMS`] and
/// [`MAX_NODES`] count as those limits.
#[derive(Clone, Copy, Debug, PartialEq, Eq)]
pub struct Capacity {
    /// Terms at first.
    pub terms: usize,
    /// Nodes at first, node 0 included.
    pub nodes: usize,
    /// The most terms.
    pub max_terms: usize,
    /// The most nodes, node 0 included; at least 1.
    pub max_nodes: usize,
}

impl Default for Capacity {
    fn default() -> Capacity {
        Capacity { terms: 64, nodes: 16, max_terms: MAX_TERMS, max_nodes: MAX_NODES }
    }
}

/// Names, terms and nodes, and all that is done with them.
///
/// A store only grows, up to its limits, so a [`Field`], a [`Run`], a pattern or bindings stay good; until the store is put back to a
/// [`Mark`] made before them. They belong to the store that made them: another one refuses them ([`Error::OtherStore`]).
///
/// It cannot be cloned: a copy would be another store, which refuses the handles.
pub struct Store {
    names: Names,
    terms: Vec<u32>,
    terms_used: usize,
    nodes: Vec<u32>,
    nodes_used: usize,
    max_terms: usize,
    max_nodes: usize,
    history: History,
}

impl Default for Store {
    fn default() -> Store {
        Store::new()
    }
}

/// How much is used, and not the words.
impl fmt::Debug for Store {
    fn fmt(&self, f: &mut fmt::Formatter<'_>) -> fmt::Result {
        let names = self.names.bytes().len();
        f.debug_struct("Store")
            .field("names", &names)
            .field("terms", &self.terms_used)
            .field("nodes", &self.nodes_used)
            .finish_non_exhaustive()
    }
}

// ---- making a store ----

impl Store {
    /// An empty store that grows up to the limits of the library.
    pub fn new() -> Store {
        Store::with_capacity(Capacity::default())
    }

    /// An empty store of this capacity.
    pub fn with_capacity(capacity: Capacity) -> Store {
        let max_terms = capacity.max_terms.min(MAX_TERMS);
        let max_nodes = capacity.max_nodes.clamp(1, MAX_NODES);
        Store {
            names: Names::default(),
            terms: vec![0; capacity.terms.min(max_terms) * TERM_WIDTH],
            terms_used: 0,
            nodes: vec![0; capacity.nodes.clamp(1, max_nodes) * NODE_WIDTH],
            nodes_used: 1,
            max_terms,
            max_nodes,
            history: History::new(),
        }
    }

    /// A store of words made elsewhere, with the used counts. Every call checks them, as it does for any store.
    pub fn from_parts(names: Vec<u8>, terms: Vec<u32>, terms_used: usize, nodes: Vec<u32>, nodes_used: usize) -> Store {
        let (names, history) = (Names::of(names), History::new());
        Store { names, terms, terms_used, nodes, nodes_used, max_terms: MAX_TERMS, max_nodes: MAX_NODES, history }
    }

    /// The names.
    pub fn names(&self) -> &[u8] {
        self.names.bytes()
    }

    /// The words of the terms, the unused ones too.
    pub fn term_words(&self) -> &[u32] {
        &self.terms
    }

    /// How many terms are used.
    pub fn terms_used(&self) -> usize {
        self.terms_used
    }

    /// The words of the nodes, the unused ones too.
    pub fn node_words(&self) -> &[u32] {
        &self.nodes
    }

    /// How many nodes are used, node 0 included.
    pub fn nodes_used(&self) -> usize {
        self.nodes_used
    }

    /// A run of this store by its numbers. The call that uses it checks them.
    pub fn run(&self, start: usize, len: usize) -> Run {
        Run::new(start, len, self.history.now())
    }

    /// A field of this store by its numbers. The call that uses it checks them.
    pub fn field(&self, node: usize, len: usize) -> Field {
        Field::new((node, len), self.history.now())
    }

    fn lent_terms(&self) -> ffi::Terms<'_> {
        ffi::Terms { names: self.names.bytes(), words: &self.terms, used: self.terms_used }
    }

    fn lent_nodes(&self) -> ffi::Nodes<'_> {
        ffi::Nodes { words: &self.nodes, used: self.nodes_used }
    }
}

// ---- marks ----

impl Store {
    /// What is used now, to put the store back to.
    pub fn mark(&self) -> Mark {
        Mark { names: self.names.bytes().len(), terms: self.terms_used, nodes: self.nodes_used, stamp: self.history.now() }
    }

    /// Frees all that was added since a mark, so that one store serves any number of messages and listings. Fields, runs, patterns, bindings and
    /// marks that rest on it are refused from then on ([`Error::PutBack`]); those made before the mark stay good.
    ///
    /// This is sound because a prefix of a valid store is valid: a record refers only to lower records and to name bytes that stood there when it was
    /// made, and its rule looks at nothing else. So the records before the mark keep their rules, and the fields and runs made of them their terms.
    ///
    /// ```
    /// use naldrev::{Bindings, Expression, Pattern, Store};
    /// let mut store = Store::new();
    /// let pattern = store.prepare(&"e.1 (kWh s.energy)".parse::<Pattern>()?)?;
    /// let mark = store.mark();
    /// for message in ["Session (kWh 42)", "Session (kWh 17)"] {
    ///     let field = store.message(&message.parse::<Expression>()?)?;
    ///     assert!(store.first(field, &pattern, &Bindings::NONE)?.is_some());
    ///     store.put_back(mark)?;
    /// }
    /// assert_eq!(store.terms_used(), 0);
    /// # Ok::<(), naldrev::Error>(())
    /// ```
    pub fn put_back(&mut self, mark: Mark) -> Result<(), Error> {
        self.history.put_back(mark)?;
        self.cut_back(mark);
        Ok(())
    }

    /// Frees what was added since a mark, where no handle made since was handed out.
    fn cut_back(&mut self, mark: Mark) {
        self.names.truncate(mark.names);
        self.terms_used = mark.terms;
        self.nodes_used = mark.nodes;
    }

    /// Does something as a whole: where it is refused, the store is as it was.
    fn all_or_nothing<T>(&mut self, change: impl FnOnce(&mut Store) -> Result<T, Error>) -> Result<T, Error> {
        let mark = self.mark();
        let answer = change(self);
        if answer.is_err() {
            self.cut_back(mark);
        }
        answer
    }

    fn check_field(&self, field: Field) -> Result<(usize, usize), Error> {
        self.history.check(field.stamp, |floor| field.node() < floor.nodes)?;
        Ok(field.pair())
    }

    fn check_run(&self, run: Run) -> Result<(usize, usize), Error> {
        self.history.check(run.stamp, |floor| run.start().saturating_add(run.len()) <= floor.terms)?;
        Ok(run.pair())
    }
}

// ---- growth ----

/// Twice the records, at least `least` and at most `most`; whether that is more than there was.
fn grow(words: &mut Vec<u32>, width: usize, least: usize, most: usize) -> bool {
    let now = words.len() / width;
    let next = (now * 2).max(least).min(most);
    if next <= now {
        return false;
    }
    words.resize(next * width, 0);
    true
}

impl Store {
    /// Makes a call that builds, with more room for nodes each time that it finds too little.
    fn building(&mut self, call: impl Fn(ffi::Terms, ffi::NodesMut) -> Result<(usize, usize), Refusal>) -> Result<Field, Error> {
        loop {
            let terms = ffi::Terms { names: self.names.bytes(), words: &self.terms, used: self.terms_used };
            let nodes = ffi::NodesMut { words: &mut self.nodes, used: &mut self.nodes_used };
            match call(terms, nodes) {
                Err(Refusal::NodesFull) if grow(&mut self.nodes, NODE_WIDTH, 16, self.max_nodes) => {}
                answer => return Ok(Field::new(answer?, self.history.now())),
            }
        }
    }

    /// Makes room for so many more terms.
    fn term_room(&mut self, more: usize) -> Result<(), Refusal> {
        let whole = self.terms.len() / TERM_WIDTH;
        if whole * TERM_WIDTH != self.terms.len() || self.terms_used > whole {
            return Err(Refusal::Uneven);
        }
        let wanted = self.terms_used.checked_add(more).filter(|n| *n <= self.max_terms).ok_or(Refusal::TermsFull)?;
        if wanted > whole {
            grow(&mut self.terms, TERM_WIDTH, wanted, self.max_terms);
        }
        Ok(())
    }
}
