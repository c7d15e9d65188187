//! Rows of calls on fields: lists of calls that build, equality and starts_with.
use crate::inputs::{Both, Draft, Sides};
use crate::plain::values::values;
use crate::port::{self, Call, Field, Store};
use crate::report::{Line, Report};
use crate::ropes::{self, Plain, Port, Steps};
use crate::timing::{self, ListTimes, Timed, TimedList};
use naldrev::TERM_WIDTH;
use original::value::ViewField;
use std::hint::black_box;

// ---- lists of calls that build ----

/// A list of calls, ready to be made again and again.
struct Building {
    steps: Steps,
    store: Store,
    /// The nodes of the given fields: each list starts from them.
    nodes_used: usize,
    on_port: Vec<Field>,
    on_rust: Vec<ViewField>,
}

impl Building {
    fn new(steps: Steps, sides: Sides, fields: Vec<Both>) -> Self {
        let nodes_used = sides.store.nodes_used;
        let on_port = fields.iter().map(|both| both.field).collect();
        let on_rust = fields.into_iter().map(|both| both.plain).collect();
        Self { steps, store: sides.store, nodes_used, on_port, on_rust }
    }

    fn build(&mut self, times: &mut ListTimes) -> Field {
        self.store.nodes_used = self.nodes_used;
        ropes::run(self.steps, &mut Port { store: &mut self.store, times }, black_box(&self.on_port))
    }

    /// Makes so many calls once on both sides, and compares what came out.
    fn agree(&mut self, calls: usize) -> bool {
        let mut times = ListTimes::default();
        let made = self.build(&mut times);
        let (mut work, mut out) = (vec![0; TERM_WIDTH * made.len], [0; 3]);
        assert_eq!(port::read(&self.store, &Call::Flatten(made, Vec::new()), &mut work, &mut out), 0, "flatten");
        let shown = if out[0] == 1 { &work[..] } else { &self.store.terms[TERM_WIDTH * out[1]..][..TERM_WIDTH * out[2]] };
        times.calls() == calls && values(&self.store.names, shown) == self.rust().to_values()
    }
}

impl TimedList for Building {
    type Answer = ViewField;

    fn rust(&mut self) -> ViewField {
        ropes::run(self.steps, &mut Plain, black_box(&self.on_rust))
    }

    fn port(&mut self, times: &mut ListTimes) {
        black_box(self.build(times));
    }
}

/// Times a list of so many calls.
fn build(report: &mut Report, row: &str, calls: usize, steps: Steps, (sides, fields): (Sides, Vec<Both>)) -> Result<(), String> {
    let mut timed = Building::new(steps, sides, fields);
    if !timed.agree(calls) {
        return Err(format!("{row}: the two sides end with different terms, or the calls are not {calls}"));
    }
    let (terms, nodes) = (timed.store.terms_used, timed.store.nodes_used);
    let times = timing::measure_list(&mut timed, &report.budget);
    report.add(Line { row: row.into(), call: "build", count: calls, terms, nodes, times });
    Ok(())
}

/// Chars of some kinds, none next to an equal one.
fn chars(count: usize) -> String {
    let chars: String = "abcdefghijklm".chars().cycle().take(count).collect();
    format!("'{chars}'")
}

/// One run of chars, in so many fields.
fn cut_up(terms: usize, pieces: usize, nodes: usize) -> (Sides, Vec<Both>) {
    let mut draft = Draft::default();
    let run = draft.run(&chars(terms));
    let mut sides = draft.sides(0, nodes);
    let pieces = sides.pieces(run, pieces);
    (sides, pieces)
}

pub fn append(report: &mut Report) -> Result<(), String> {
    build(report, "1,000 joins, appended", 1000, Steps::Append, cut_up(1001, 1001, 20_000))
}

pub fn prepend(report: &mut Report) -> Result<(), String> {
    build(report, "1,000 joins, prepended", 1000, Steps::Prepend, cut_up(1001, 1001, 20_000))
}

pub fn rest(report: &mut Report) -> Result<(), String> {
    build(report, "rest by 1 to the end, 1,000 terms in one run", 1000, Steps::Rest, cut_up(1000, 1, 20_000))
}

pub fn rest_of_rope(report: &mut Report) -> Result<(), String> {
    let (mut sides, pieces) = cut_up(1000, 1000, 40_000);
    let rope = ropes::both(Steps::Append, &mut sides.store, &pieces);
    let row = "rest by 1 to the end, a rope of 1,000 terms joined one by one";
    build(report, row, 1000, Steps::Rest, (sides, vec![rope]))
}

/// A take, a rest and a join for each cut.
pub fn cut(report: &mut Report) -> Result<(), String> {
    build(report, "cut and joined the other way round 100 times, 1,000 terms", 300, Steps::Cut, cut_up(1000, 1, 20_000))
}

// ---- calls that read ----

/// A comparison of two fields, ready to be made again and again.
struct Reading {
    store: Store,
    left: Both,
    right: Both,
    equal: bool,
    call: Call,
    whole_field: Call,
    yes: usize,
}

impl Timed for Reading {
    type Answer = bool;

    fn rust(&mut self) -> bool {
        let (left, right) = black_box((&self.left.plain, &self.right.plain));
        if self.equal { left == right } else { left.starts_with(right) }
    }

    fn whole(&mut self) {
        let mut out = [0];
        assert_eq!(port::read(&self.store, &self.call, &mut [], &mut out), 0, "a call that reads");
        self.yes = out[0];
    }

    fn checks(&mut self) {
        assert_eq!(port::read(&self.store, &self.whole_field, &mut [], &mut [0; 2]), 0, "take");
    }
}

fn six_times(pieces: &[Both]) -> Vec<Both> {
    pieces.iter().cycle().take(6 * pieces.len()).cloned().collect()
}

/// Two ropes of 3,000 equal terms, pieced together differently, of two places in the store with 500 terms each.
fn compare(report: &mut Report, row: &str, block: &str, equal: bool) -> Result<(), String> {
    let mut draft = Draft::default();
    let (one, two) = (draft.run(block), draft.run(block));
    let mut sides = draft.sides(0, 1000);
    let (large, small) = (sides.pieces(one, 5), sides.pieces(two, 20));
    let left = ropes::both(Steps::Append, &mut sides.store, &six_times(&large));
    let right = ropes::both(Steps::Append, &mut sides.store, &six_times(&small));
    let (f, g, store) = (left.field, right.field, sides.store);
    let call = if equal { Call::Equal(f, g) } else { Call::StartsWith(f, g) };
    let (terms, nodes, whole_field) = (store.terms_used, store.nodes_used, Call::Take(f, f.len));
    let mut timed = Reading { store, left, right, equal, call, whole_field, yes: 0 };
    timed.whole();
    if (timed.rust(), timed.yes) != (true, 1) || f.len != 3000 {
        return Err(format!("{row}: the answers are not both yes"));
    }
    let times = timing::measure(&mut timed, &report.budget);
    report.add(Line { row: row.into(), call: if equal { "equal" } else { "starts_with" }, count: 1, terms, nodes, times });
    Ok(())
}

/// 500 terms of readings.
fn readings() -> String {
    (0..125).map(|i| format!("Meter {} (kWh {}) '-' ", 1000 + i, i % 7)).collect()
}

pub fn equal(report: &mut Report) -> Result<(), String> {
    compare(report, "ropes of 3,000 chars", &chars(500), true)?;
    compare(report, "ropes of 3,000 terms of readings", &readings(), true)
}

pub fn starts_with(report: &mut Report) -> Result<(), String> {
    compare(report, "ropes of 3,000 chars", &chars(500), false)?;
    compare(report, "ropes of 3,000 terms of readings", &readings(), false)
}
