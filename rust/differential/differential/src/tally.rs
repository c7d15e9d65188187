//! Counts of a part of the run, and the comparison of one call.
use crate::oracle;
use crate::port::{self, Call, Outcome, Store};
use crate::rules;
use original::value::ViewField;
use std::fmt::Write;
use std::panic::{AssertUnwindSafe, catch_unwind};

/// Differences after which a run ends.
const ENOUGH: usize = 20;

pub struct Tally {
    pub part: &'static str,
    pub calls: u64,
    pub candidates: u64,
    pub left_out: u64,
    pub answers: [u64; 17],
    /// Listings that could have more candidates are left out.
    pub bound: f64,
    /// Descriptions of what differed.
    pub differences: Vec<String>,
}

impl Tally {
    pub fn new(part: &'static str) -> Self {
        Self { part, calls: 0, candidates: 0, left_out: 0, answers: [0; 17], bound: 40_000.0, differences: Vec::new() }
    }

    pub fn full(&self) -> bool {
        self.differences.len() >= ENOUGH
    }

    /// Makes a call on both sides and compares all that it leaves; hands back what the port left, nothing where the case is too large for
    /// the Rust. `field` is the request's field in the Rust where it was made by the same calls.
    pub fn compare(&mut self, store: &Store, call: &Call, field: Option<&ViewField>) -> Option<Outcome> {
        if too_many(store, call, self.bound) {
            self.left_out += 1;
            return None;
        }
        let got = port::run(store, call);
        self.calls += 1;
        let asked = catch_unwind(AssertUnwindSafe(|| oracle::outcome(store, call, field)));
        match asked.unwrap_or(Err("the original panicked".into())) {
            Ok(want) => {
                self.answers[want.answer] += 1;
                if matches!(call, Call::Match(_)) && (want.answer == 0 || want.answer == 15) {
                    self.candidates += want.values[0] as u64;
                }
                if want != got {
                    self.differ(&describe(store, call, Some(&want), &got));
                }
            }
            Err(why) => self.differ(&(why + "\n" + &describe(store, call, None, &got))),
        }
        Some(got)
    }

    pub fn differ(&mut self, what: &str) {
        self.differences.push(format!("{}: {what}", self.part));
    }

    pub fn line(&self) -> String {
        let mut line = format!(
            "{:<10} calls {:>9}  candidates {:>9}  differences {}  answers",
            self.part,
            self.calls,
            self.candidates,
            self.differences.len()
        );
        for (number, count) in self.answers.iter().enumerate().filter(|(_, count)| **count > 0) {
            let _ = write!(line, " {number}:{count}");
        }
        if self.left_out > 0 {
            let _ = write!(line, "  left out (too many candidates for the Rust) {}", self.left_out);
        }
        line
    }
}

/// Where the Rust would build a list too long for it.
fn too_many(store: &Store, call: &Call, bound: f64) -> bool {
    match call {
        Call::Match(request) => rules::refusal(store, call) == 0 && oracle::candidates_bound(store, request) > bound,
        _ => false,
    }
}

/// A difference in words: all stores, the call, and what was left on both sides.
pub fn describe(store: &Store, call: &Call, want: Option<&Outcome>, got: &Outcome) -> String {
    let mut text = format!("{call:?}\n");
    let _ = writeln!(text, "  names {:?}", String::from_utf8_lossy(&store.names));
    let _ = writeln!(text, "  terms {} {:?}", store.terms_used, store.terms);
    let _ = writeln!(text, "  nodes {} {:?}", store.nodes_used, store.nodes);
    let mut side = |name: &str, o: &Outcome| {
        let _ = writeln!(text, "  {name}: answer {} values {:?}", o.answer, o.values);
        let (terms, nodes) = (o.store.terms != store.terms, o.store.nodes != store.nodes);
        let _ = writeln!(text, "    terms used {} nodes used {}", o.store.terms_used, o.store.nodes_used);
        if terms {
            let _ = writeln!(text, "    terms {:?}", o.store.terms);
        }
        if nodes {
            let _ = writeln!(text, "    nodes {:?}", o.store.nodes);
        }
        if !o.lent.is_empty() {
            let _ = writeln!(text, "    slots or work {:?}", o.lent);
        }
    };
    if let Some(want) = want {
        side("want", want);
    }
    side("port", got);
    text
}
