//! What a store hands out: fields, runs and marks. Each knows the store that made it and when, so that one of another store, or one made after the
//! mark to which its store was put back, is refused and never taken for another.

use std::sync::atomic::{AtomicU64, Ordering};

use crate::{Error, Refusal};

/// Which store made a handle, and how often that store had been put back by then.
#[derive(Clone, Copy, Debug, PartialEq, Eq, Hash)]
pub(super) struct Stamp {
    store: u64,
    time: u64,
}

impl Stamp {
    /// Of every store.
    pub(super) const ANY: Stamp = Stamp { store: 0, time: 0 };
}

/// A part of the term store: so many terms from a first one on.
#[derive(Clone, Copy, Debug, PartialEq, Eq, Hash)]
pub struct Run {
    start: usize,
    len: usize,
    pub(super) stamp: Stamp,
}

impl Run {
    pub(super) fn new(start: usize, len: usize, stamp: Stamp) -> Run {
        Run { start, len, stamp }
    }

    /// The number of its first term.
    pub fn start(self) -> usize {
        self.start
    }

    /// How many terms it has.
    pub fn len(self) -> usize {
        self.len
    }

    /// Whether it has no terms.
    pub fn is_empty(self) -> bool {
        self.len == 0
    }

    pub(super) fn pair(self) -> (usize, usize) {
        (self.start, self.len)
    }

    /// As two words. A number too large for a word is past every store's end.
    pub(super) fn words(self) -> Result<[u32; 2], Refusal> {
        let word = |n: usize| u32::try_from(n).map_err(|_| Refusal::PastEnd);
        Ok([word(self.start)?, word(self.len)?])
    }
}

/// A field: the first `len` terms of a node. It has no equality of its own: two nodes can hold the same terms (see [`crate::Store::equal`]).
#[derive(Clone, Copy, Debug)]
pub struct Field {
    node: usize,
    len: usize,
    pub(super) stamp: Stamp,
}

impl Field {
    /// The empty field, which belongs to every store.
    pub const EMPTY: Field = Field { node: 0, len: 0, stamp: Stamp::ANY };

    pub(super) fn new((node, len): (usize, usize), stamp: Stamp) -> Field {
        Field { node, len, stamp }
    }

    /// The number of its node.
    pub fn node(self) -> usize {
        self.node
    }

    /// How many terms it has.
    pub fn len(self) -> usize {
        self.len
    }

    /// Whether it has no terms.
    pub fn is_empty(self) -> bool {
        self.len == 0
    }

    pub(super) fn pair(self) -> (usize, usize) {
        (self.node, self.len)
    }
}

/// How much of a store was used at some time: see [`crate::Store::mark`].
#[derive(Clone, Copy, Debug)]
pub struct Mark {
    pub(super) names: usize,
    pub(super) terms: usize,
    pub(super) nodes: usize,
    pub(super) stamp: Stamp,
}

/// Since when which part of a store has stood unchanged.
#[derive(Debug)]
pub(super) struct History {
    store: u64,
    time: u64,
    /// The marks to which the store was put back, by time. One that is no lower than a later one tells nothing more and is left out, so they rise.
    floors: Vec<(u64, Mark)>,
}

impl History {
    pub(super) fn new() -> History {
        static NEXT: AtomicU64 = AtomicU64::new(1);
        History { store: NEXT.fetch_add(1, Ordering::Relaxed), time: 0, floors: Vec::new() }
    }

    /// The stamp of a handle made now.
    pub(super) fn now(&self) -> Stamp {
        Stamp { store: self.store, time: self.time }
    }

    /// Checks a handle: that it is of this store, and that what it rests on has not been put back since. `rests` says whether it rests on
    /// nothing above a mark.
    pub(super) fn check(&self, stamp: Stamp, rests: impl Fn(&Mark) -> bool) -> Result<(), Error> {
        if stamp == Stamp::ANY {
            return Ok(());
        }
        if stamp.store != self.store {
            return Err(Error::OtherStore);
        }
        // Of the marks put back to since then, the first is the lowest.
        let later = self.floors.partition_point(|(time, _)| *time <= stamp.time);
        match self.floors.get(later) {
            Some((_, floor)) if !rests(floor) => Err(Error::PutBack),
            _ => Ok(()),
        }
    }

    /// Checks a mark, and notes that the store is put back to it.
    pub(super) fn put_back(&mut self, mark: Mark) -> Result<(), Error> {
        self.check(mark.stamp, |floor| mark.names <= floor.names && mark.terms <= floor.terms && mark.nodes <= floor.nodes)?;
        self.time += 1;
        while self.floors.last().is_some_and(|(_, f)| f.names >= mark.names && f.terms >= mark.terms && f.nodes >= mark.nodes) {
            self.floors.pop();
        }
        self.floors.push((self.time, mark));
        Ok(())
    }
}
