//! The calls that are timed, each with the answer that it has to give.
use crate::raw;
use crate::store::{Field, Run, Store, UNUSED};
use naldrev::{MAX_TERMS, TERM_WIDTH};

/// Kinds of pattern records and bindings.
pub const T: u32 = 6;
pub const E: u32 = 7;

/// The refusal of too many names.
pub const TOO_MANY_NAMES: usize = 9;

/// The arguments of a listing, or of a first match.
#[derive(Clone)]
pub struct Match {
    pub first: bool,
    pub field: Field,
    pub pattern: Vec<u32>,
    pub bindings: Vec<u32>,
}

pub enum Call {
    Flatten(Field),
    Equal(Field, Field),
    StartsWith(Field, Field),
    CompareRuns(Run, Run),
    Match(Match),
}

/// What a call has to answer.
pub enum Answer {
    Compared(bool),
    /// These terms in the work buffer, each by its number in the store.
    Copied(Vec<usize>),
    /// One candidate with these runs, and these terms copied after the used ones.
    Candidate(Vec<Run>, Vec<usize>),
    Refused(usize),
}

pub struct Request {
    pub call: Call,
    pub answer: Answer,
}

/// A store, and what is asked of it.
pub struct Case {
    pub store: Store,
    pub requests: Vec<Request>,
}

/// What a call returned, and its out parameters.
#[derive(Debug, PartialEq)]
pub struct Outcome {
    pub number: usize,
    pub values: [usize; 3],
}

/// What calls write to beside the store.
pub struct Lent {
    work: Vec<u32>,
    slots: Vec<u32>,
}

impl Lent {
    pub fn new() -> Self {
        Self { work: vec![UNUSED; MAX_TERMS * TERM_WIDTH], slots: vec![UNUSED; 64] }
    }

    /// Takes away what the last call has written, here and behind the used terms.
    pub fn clear(&mut self, store: &mut Store) {
        self.work.fill(UNUSED);
        self.slots.fill(UNUSED);
        store.terms[store.terms_used * TERM_WIDTH..].fill(UNUSED);
    }
}

/// Records of a pattern or the kinds and names of bindings: a kind and the offset of a name of one byte.
pub fn variable(kind: u32, name: usize) -> [u32; 4] {
    [kind, name as u32, 1, 0]
}

pub fn binding(kind: u32, name: Run, run: Run) -> [u32; 5] {
    [kind, name.start as u32, name.len as u32, run.start as u32, run.len as u32]
}

/// The listing and the first match of a pattern.
pub fn both_matches(field: Field, pattern: &[[u32; 4]], runs: &[Run], copied: &[usize]) -> [Request; 2] {
    [false, true].map(|first| {
        let call = Call::Match(Match { first, field, pattern: pattern.concat(), bindings: Vec::new() });
        Request { call, answer: Answer::Candidate(runs.to_vec(), copied.to_vec()) }
    })
}

pub fn listing(field: Field, pattern: &[[u32; 4]], bindings: &[[u32; 5]], answer: Answer) -> Request {
    let call = Call::Match(Match { first: false, field, pattern: pattern.concat(), bindings: bindings.concat() });
    Request { call, answer }
}

impl Request {
    pub fn compared(call: Call, yes: bool) -> Self {
        Self { call, answer: Answer::Compared(yes) }
    }

    pub fn name(&self) -> &'static str {
        match &self.call {
            Call::Flatten(_) => "flatten",
            Call::Equal(..) => "equal",
            Call::StartsWith(..) => "starts_with",
            Call::CompareRuns(..) => "compare_runs",
            Call::Match(asked) if asked.first => "first",
            Call::Match(_) => "listing",
        }
    }

    /// The call. A listing moves the count of the used terms; the caller puts it back.
    pub fn make(&self, store: &mut Store, lent: &mut Lent) -> Outcome {
        match &self.call {
            Call::Flatten(field) => raw::flatten(store, *field, &mut lent.work),
            Call::Equal(left, right) => raw::equal(store, *left, *right),
            Call::StartsWith(field, front) => raw::starts_with(store, *field, *front),
            Call::CompareRuns(first, second) => raw::compare_runs(store, *first, *second),
            Call::Match(asked) => raw::matching(store, asked, &mut lent.slots),
        }
    }

    /// Whether the outcome, and what the call has written, are right; `used` are the terms used before it.
    pub fn is_right(&self, outcome: &Outcome, store: &Store, used: usize, lent: &Lent) -> bool {
        let (number, values) = match &self.answer {
            Answer::Compared(yes) => (0, [usize::from(*yes), 0, 0]),
            Answer::Copied(terms) => (0, [1, 0, terms.len()]),
            Answer::Candidate(runs, _) => (0, [1, runs.len(), 0]),
            Answer::Refused(number) => (*number, [0; 3]),
        };
        if *outcome != (Outcome { number, values }) {
            return false;
        }
        let same =
            |copy: &[u32], terms: &[usize]| copy.chunks(TERM_WIDTH).zip(terms).all(|(words, number)| words == store.term_words(*number));
        match &self.answer {
            Answer::Copied(terms) => same(&lent.work, terms),
            Answer::Candidate(runs, copied) => {
                let words = runs.iter().flat_map(|run| [run.start as u32, run.len as u32]);
                store.terms_used == used + copied.len()
                    && same(&store.terms[used * TERM_WIDTH..], copied)
                    && words.zip(&lent.slots).all(|(word, slot)| word == *slot)
            }
            Answer::Compared(_) | Answer::Refused(_) => store.terms_used == used,
        }
    }
}
