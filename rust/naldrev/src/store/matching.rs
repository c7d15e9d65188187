//! The two calls that match, and what they find.

use std::sync::Arc;

use super::{grow, Bindings, Field, Prepared, Run, Stamp, Store, Terms};
use crate::pattern::{Variable, VariableKind};
use crate::records::{BINDING_WIDTH, PATTERN_WIDTH, RUN_WIDTH, TERM_WIDTH};
use crate::{ffi, Error, Refusal};

/// One candidate: a way in which a pattern fits, with what each variable then stands for. The variables of the start come first, then those of the
/// pattern by first occurrence.
#[derive(Clone, Debug, PartialEq, Eq)]
pub struct Candidate {
    variables: Arc<[Variable]>,
    /// Start and length for each variable.
    runs: Vec<[u32; RUN_WIDTH]>,
    stamp: Stamp,
}

impl Candidate {
    /// The variables, each with the run of terms that it stands for.
    pub fn iter(&self) -> impl Iterator<Item = (&Variable, Run)> {
        self.variables.iter().zip(self.runs.iter().map(|run| self.run_of(*run)))
    }

    /// The run of a variable by its name as a pattern writes it, such as `e.before`, the case of the name ignored.
    pub fn run(&self, variable: &str) -> Option<Run> {
        let (kind, name) = variable.split_once('.')?;
        let named = |v: &Variable| kind.chars().eq([v.kind.letter()]) && v.name.eq_ignore_ascii_case(name);
        self.variables.iter().position(named).map(|entry| self.run_of(self.runs[entry]))
    }

    /// The terms of a variable by its name, as [`Candidate::run`] takes it; `None` if the candidate has no such variable.
    pub fn get<'a>(&self, store: &'a Store, variable: &str) -> Result<Option<Terms<'a>>, Error> {
        self.run(variable).map(|run| store.terms(run)).transpose()
    }

    /// The variables, each with the terms that it stands for.
    pub fn terms<'a>(&'a self, store: &'a Store) -> Result<impl Iterator<Item = (&'a Variable, Terms<'a>)>, Error> {
        let terms = self.iter().map(|(_, run)| store.terms(run)).collect::<Result<Vec<_>, Error>>()?;
        Ok(self.variables.iter().zip(terms))
    }

    fn run_of(&self, [start, len]: [u32; RUN_WIDTH]) -> Run {
        Run::new(start as usize, len as usize, self.stamp)
    }
}

/// What a listing found: the candidates in the library's order, the shortest values of the earliest e-variables first.
#[derive(Clone, Debug, PartialEq, Eq)]
pub struct Listing {
    variables: Arc<[Variable]>,
    candidates: Vec<Candidate>,
    more: bool,
}

impl Listing {
    /// The variables of every candidate.
    pub fn variables(&self) -> &[Variable] {
        &self.variables
    }

    /// How many candidates were listed.
    pub fn len(&self) -> usize {
        self.candidates.len()
    }

    /// Whether none was listed: the pattern does not fit, or none was asked for.
    pub fn is_empty(&self) -> bool {
        self.candidates.is_empty()
    }

    /// Whether there is a further candidate, beyond as many as were asked for.
    pub fn more(&self) -> bool {
        self.more
    }

    /// A candidate by its number, from 0.
    pub fn get(&self, number: usize) -> Option<&Candidate> {
        self.candidates.get(number)
    }

    /// The candidates, in order.
    pub fn iter(&self) -> std::slice::Iter<'_, Candidate> {
        self.candidates.iter()
    }
}

impl<'a> IntoIterator for &'a Listing {
    type Item = &'a Candidate;
    type IntoIter = std::slice::Iter<'a, Candidate>;

    fn into_iter(self) -> Self::IntoIter {
        self.iter()
    }
}

impl IntoIterator for Listing {
    type Item = Candidate;
    type IntoIter = std::vec::IntoIter<Candidate>;

    fn into_iter(self) -> Self::IntoIter {
        self.candidates.into_iter()
    }
}

/// What both calls are asked.
#[derive(Clone, Copy)]
struct Question<'a> {
    field: (usize, usize),
    pattern: &'a Prepared,
    start: &'a Bindings,
    /// Whether the first candidate is wanted alone.
    head: bool,
}

/// The slots that are lent at first; more are lent where a longer list is asked for.
const FIRST_SLOTS: usize = 64;

impl Store {
    /// Lists the candidates of a pattern over a field, from starting bindings: at most `limit`, and whether there are more. Where the pattern does
    /// not fit the listing is empty. With no names there is nothing to tell candidates apart, and at most one is listed. A field that is not one
    /// run is first copied to the terms. Where candidates are listed the copy stays, for they rest on it; [`Store::put_back`] frees it.
    pub fn candidates(&mut self, field: Field, pattern: &Prepared, start: &Bindings, limit: usize) -> Result<Listing, Error> {
        self.list(field, pattern, start, limit, false)
    }

    /// The first candidate alone, as [`Store::candidates`] would list it.
    pub fn first(&mut self, field: Field, pattern: &Prepared, start: &Bindings) -> Result<Option<Candidate>, Error> {
        Ok(self.list(field, pattern, start, 1, true)?.into_iter().next())
    }

    fn list(&mut self, field: Field, pattern: &Prepared, start: &Bindings, limit: usize, head: bool) -> Result<Listing, Error> {
        self.check_request(pattern, start)?;
        let question = Question { field: self.check_field(field)?, pattern, start, head };
        let entries = ffi::name_count(self.names.bytes(), pattern.words(), start.words());
        let mark = self.mark();
        let mut room = limit.min(FIRST_SLOTS);
        loop {
            let mut slots = vec![0; room * RUN_WIDTH * entries];
            match self.matched(question, &mut slots) {
                // A longer list is asked for: the settled copy is made again, in the same place.
                Ok(listed) if listed.more && entries > 0 && room < limit => {
                    self.cut_back(mark);
                    room = room.saturating_mul(2).min(limit);
                }
                Ok(listed) if limit > 0 => return Ok(self.listing(question, &slots, &listed)),
                // None is listed, so nothing rests on the settled copy.
                answer => {
                    self.cut_back(mark);
                    let more = match answer {
                        Ok(_) => true,
                        Err(Refusal::NoMatch) => false,
                        Err(refusal) => return Err(refusal.into()),
                    };
                    return Ok(self.listing(question, &[], &ffi::Listed { count: 0, entries, more }));
                }
            }
        }
    }

    /// One call, with these slots. More room for terms is made each time that the settled copy finds too little.
    fn matched(&mut self, question: Question, slots: &mut [u32]) -> Result<ffi::Listed, Refusal> {
        loop {
            let request = ffi::Request {
                terms: &mut self.terms,
                terms_used: &mut self.terms_used,
                nodes: ffi::Nodes { words: &self.nodes, used: self.nodes_used },
                field: question.field,
                pattern: question.pattern.words(),
                bindings: question.start.words(),
                slots,
            };
            match ffi::matching(self.names.bytes(), request, question.head) {
                Err(Refusal::TermsFull) if grow(&mut self.terms, TERM_WIDTH, 64, self.max_terms) => {}
                answer => return answer,
            }
        }
    }

    /// The slots that the library wrote, as a listing.
    fn listing(&self, question: Question, slots: &[u32], listed: &ffi::Listed) -> Listing {
        // Of a first candidate that is not there nobody asks the variables.
        let unseen = question.head && listed.count == 0;
        let variables = if unseen { Arc::default() } else { self.variables(question.pattern, question.start) };
        let width = RUN_WIDTH * listed.entries;
        let candidate = |i: usize| Candidate {
            variables: variables.clone(),
            runs: slots[i * width..][..width].chunks_exact(RUN_WIDTH).map(|w| [w[0], w[1]]).collect(),
            stamp: self.history.now(),
        };
        let candidates = (0..listed.count).map(candidate).collect();
        Listing { variables, candidates, more: listed.more }
    }

    /// The variables of the start, then those of the pattern by first occurrence. The library has checked both.
    fn variables(&self, pattern: &Prepared, start: &Bindings) -> Arc<[Variable]> {
        let mut found: Vec<Variable> = Vec::new();
        for record in start.words().chunks_exact(BINDING_WIDTH).chain(pattern.words().chunks_exact(PATTERN_WIDTH)) {
            let Some(kind) = VariableKind::from_code(record[0]) else { continue };
            let Ok(name) = self.read_text(record[1] as usize, record[2] as usize) else { continue };
            let variable = Variable { kind, name: name.into() };
            if !found.contains(&variable) {
                found.push(variable);
            }
        }
        found.into()
    }
}
