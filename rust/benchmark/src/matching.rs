//! Rows of matches: a listing and a first match of one pattern over one field.
use crate::inputs::{Both, Draft, Pattern, Sides};
use crate::port::{self, Call, Request, Store};
use crate::report::{Line, Report};
use crate::ropes::{self, Steps};
use crate::timing::{self, Timed};
use naldrev::sys::naldrev_name_count;
use original::matcher::{Bindings, MatchError, match_pattern_first, match_pattern_with_bindings_candidates};
use std::hint::black_box;

/// The names of a pattern, no bindings given.
fn name_count(store: &Store, pattern: &[u32]) -> usize {
    let (names, len) = (store.names.as_ptr(), store.names.len());
    unsafe { naldrev_name_count(names, len, pattern.as_ptr(), pattern.len(), [].as_ptr(), 0) }
}

/// One match, ready to be made again and again.
struct Match<'a> {
    store: &'a mut Store,
    /// The terms before any settled copy: each call starts from them.
    terms_used: usize,
    on: &'a Both,
    pattern: &'a Pattern,
    request: Request,
    slots: Vec<u32>,
    out: [usize; 2],
    whole_field: Call,
}

impl<'a> Match<'a> {
    fn new(store: &'a mut Store, on: &'a Both, pattern: &'a Pattern, first: bool, candidates: usize) -> Self {
        let slots = vec![0; 2 * name_count(store, &pattern.words) * candidates];
        let request = Request { first, field: on.field, pattern: pattern.words.clone(), bindings: Vec::new(), slots: Vec::new() };
        let terms_used = store.terms_used;
        Self { store, terms_used, on, pattern, request, slots, out: [0; 2], whole_field: Call::Take(on.field, on.field.len) }
    }

    /// How many candidates each side finds.
    fn found(&mut self) -> [usize; 2] {
        let found = match self.rust() {
            Found::All(list) => list.map_or(0, |list| list.len()),
            Found::First(candidate) => candidate.is_ok().into(),
        };
        self.whole();
        [found, self.out[0]]
    }
}

/// What the Rust answers.
enum Found {
    All(Result<Vec<Bindings>, MatchError>),
    First(Result<Bindings, MatchError>),
}

impl Timed for Match<'_> {
    type Answer = Found;

    fn rust(&mut self) -> Found {
        let (pattern, field) = black_box((&self.pattern.terms, &self.on.plain));
        if self.request.first {
            return Found::First(match_pattern_first(pattern, field));
        }
        Found::All(match_pattern_with_bindings_candidates(pattern, field, Bindings::new()))
    }

    fn whole(&mut self) {
        self.store.terms_used = self.terms_used;
        let answer = port::list(self.store, &self.request, &mut self.slots, &mut self.out);
        assert_eq!(answer, 0, "a listing");
    }

    /// `take` of the whole field checks all used terms and nodes, and hands back a length; `name_count` checks the pattern and the bindings,
    /// and numbers the names.
    fn checks(&mut self) {
        self.store.terms_used = self.terms_used;
        assert_eq!(port::read(self.store, &self.whole_field, &mut [], &mut self.out), 0, "take");
        black_box(name_count(self.store, &self.request.pattern));
    }
}

/// A pattern on a message, with as many candidates as both sides have to find.
pub struct Case {
    pub sides: Sides,
    pub on: Both,
    pub pattern: Pattern,
    pub candidates: usize,
}

impl Case {
    /// A message of one run.
    pub fn new(message: &str, pattern: &str, candidates: usize) -> Self {
        let mut draft = Draft::default();
        let run = draft.run(message);
        let pattern = draft.pattern(pattern);
        let mut sides = draft.sides(0, 1);
        let on = sides.field(&[run]);
        Self { sides, on, pattern, candidates }
    }

    /// Times a listing and a first match.
    pub fn time(mut self, report: &mut Report, row: &str) -> Result<(), String> {
        for (call, first) in [("listing", false), ("first", true)] {
            self.time_one(report, row, call, first)?;
        }
        Ok(())
    }

    pub fn time_one(&mut self, report: &mut Report, row: &str, call: &'static str, first: bool) -> Result<(), String> {
        let wanted = if first { 1 } else { self.candidates };
        let (terms, nodes) = (self.sides.store.terms_used, self.sides.store.nodes_used);
        let mut timed = Match::new(&mut self.sides.store, &self.on, &self.pattern, first, wanted);
        let found = timed.found();
        if found != [wanted; 2] {
            return Err(format!("{row}, {call}: the Rust finds {}, the port {}, and {wanted} are wanted", found[0], found[1]));
        }
        let times = timing::measure(&mut timed, &report.budget);
        self.sides.store.terms_used = terms;
        report.add(Line { row: row.into(), call, count: wanted, terms, nodes, times });
        Ok(())
    }
}

const DASH: &str = "e.1 '-' e.2";

/// So many chars, every 50th a dash.
fn dashes(count: usize) -> String {
    let chars: String = (1..=count).map(|i| if i % 50 == 0 { '-' } else { 'a' }).collect();
    format!("'{chars}'")
}

pub fn dash_in_one_run(report: &mut Report) -> Result<(), String> {
    Case::new(&dashes(1000), DASH, 20).time(report, "`e.1 '-' e.2`, 1,000 terms in one run")
}

/// The runs stand in the store from last to first, so that none is fused with the next.
pub fn dash_in_eight_runs(report: &mut Report) -> Result<(), String> {
    let mut draft = Draft::default();
    let (start, len) = draft.run(&dashes(1000));
    let pattern = draft.pattern(DASH);
    let mut sides = draft.sides(len, 8);
    let runs: Vec<_> = (0..8).rev().map(|i| (start + i * len / 8, len / 8)).collect();
    let on = sides.field(&runs);
    Case { sides, on, pattern, candidates: 20 }.time(report, "`e.1 '-' e.2`, 1,000 terms in eight runs")
}

/// Identifiers that differ in their last letter, every 50th the one that the pattern has, there in capitals.
pub fn identifiers(report: &mut Report) -> Result<(), String> {
    let message: String = (1..=1000).map(|i| if i % 50 == 0 { "Zone-b " } else { "Zone-a " }).collect();
    Case::new(&message, "e.1 ZONE-B e.2", 20).time(report, "`e.1 ZONE-B e.2`, 1,000 identifiers")
}

/// Numbers that differ in their last digit, every 50th the one that the pattern has.
pub fn numbers(report: &mut Report) -> Result<(), String> {
    let message: String = (1..=1000).map(|i| if i % 50 == 0 { "1042 " } else { "1041 " }).collect();
    Case::new(&message, "e.1 1042 e.2", 20).time(report, "`e.1 1042 e.2`, 1,000 numbers")
}

pub fn five_open(report: &mut Report) -> Result<(), String> {
    let message = format!("'{}'", "abcdefghij".repeat(6));
    let pattern = "e.1 'a' e.2 'b' e.3 'c' e.4 'd' e.5";
    Case::new(&message, pattern, 126).time(report, &format!("`{pattern}`, 60 symbols"))
}

pub fn doubled(report: &mut Report) -> Result<(), String> {
    Case::new(&format!("'{}'", "a".repeat(200)), "e.1 e.1", 1).time(report, "`e.1 e.1`, 200 equal chars")
}

pub fn around(report: &mut Report) -> Result<(), String> {
    Case::new(&format!("'{}'", "ab".repeat(100)), "e.1 e.2 e.1", 51).time(report, "`e.1 e.2 e.1`, `ab` 100 times")
}

pub fn records(report: &mut Report) -> Result<(), String> {
    let message: String =
        (0..40).map(|i| format!("Session (Site {} (Meter {}) (kWh {}) (Tariff Night) end) ", i, 1000 + 7 * i, i % 9)).collect();
    let pattern = "e.1 (e.2 (e.3 s.x) e.4) e.5";
    Case::new(&message, pattern, 120).time(report, &format!("`{pattern}`, 40 records"))
}

/// Five different terms, twenty times each.
pub fn twice(report: &mut Report) -> Result<(), String> {
    let message: String = (0..100).map(|i| format!("{} ", ["'a'", "Day", "42", "(kWh 42)", "Night"][i % 5])).collect();
    let pattern = "e.1 t.x e.2 t.x e.3";
    Case::new(&message, pattern, 5 * 190).time(report, &format!("`{pattern}`, 100 terms"))
}

/// Each level has two symbols before its bracket, and an e-variable takes them.
pub fn deep(report: &mut Report) -> Result<(), String> {
    let levels = |front: &dyn Fn(usize) -> String| -> String {
        let open: String = (1..=16).map(|i| format!("{} (", front(i))).collect();
        format!("{open}{}{}", front(17), ")".repeat(16))
    };
    let message = levels(&|i| format!("Level {i}"));
    let pattern = levels(&|i| format!("e.{i}"));
    Case::new(&message, &pattern, 1).time(report, "`e.1 (e.2 (..))`, brackets 16 deep")
}

pub fn on_a_rope(report: &mut Report) -> Result<(), String> {
    let mut draft = Draft::default();
    let run = draft.run(&dashes(1000));
    let pattern = draft.pattern(DASH);
    let mut sides = draft.sides(1000, 20_000);
    let pieces = sides.pieces(run, 1000);
    let on = ropes::both(Steps::Append, &mut sides.store, &pieces);
    Case { sides, on, pattern, candidates: 20 }.time(report, "`e.1 '-' e.2`, a rope of 1,000 terms joined one by one")
}
