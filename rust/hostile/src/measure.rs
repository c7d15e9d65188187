//! Measures a row: the calls at each size, and the checks of the same stores alone.
use crate::raw;
use crate::request::{Case, Lent, Request};
use crate::store::Store;
use crate::table::Row;
use crate::timing::{least, once};

/// The seconds that repeats of a call take together, and those of its checks.
const CALLS: f64 = 0.1;
const CHECKS: f64 = 0.03;

/// What `--check` takes the least of where the first time is over the bound, but not far over it.
const TRIES: usize = 3;
const FAR: f64 = 3.0;

/// Seconds at one size.
#[derive(Clone, Copy)]
pub struct Times {
    pub size: usize,
    pub call: f64,
    pub checks: f64,
}

impl Times {
    /// How many times the checks the call takes.
    pub fn multiple(&self) -> f64 {
        self.call / self.checks
    }
}

/// The calls of a row, each with the times at the sizes that were measured.
pub struct Line {
    pub row: &'static Row,
    pub call: &'static str,
    pub times: Vec<Times>,
}

/// The checks alone. They have to accept the store: it is within the rules.
fn checks(row: &Row, store: &Store) -> Result<f64, String> {
    let (first, number) = once(|| raw::checks(store));
    if number != 0 {
        return Err(format!("{}: the store is refused with number {number}", row.name));
    }
    Ok(least(first, CHECKS, || {
        raw::checks(store);
    }))
}

/// One call, whose answer has to be right.
fn call(row: &Row, request: &Request, store: &mut Store, lent: &mut Lent) -> Result<f64, String> {
    let used = store.terms_used;
    lent.clear(store);
    let (taken, outcome) = once(|| request.make(store, lent));
    let right = request.is_right(&outcome, store, used, lent);
    store.terms_used = used;
    if right { Ok(taken) } else { Err(format!("{}, {}: a wrong answer: {outcome:?}", row.name, request.name())) }
}

fn repeated(first: f64, request: &Request, store: &mut Store, lent: &mut Lent) -> f64 {
    let used = store.terms_used;
    least(first, CALLS, || {
        request.make(store, lent);
        store.terms_used = used;
    })
}

/// The calls of a row in the table have to be those of its stores.
fn made(row: &Row, size: usize) -> Case {
    let case = (row.make)(size);
    let names = case.requests.iter().map(Request::name);
    assert!(names.eq(row.bounds.iter().map(|bound| bound.0)), "{}: the calls of the table", row.name);
    case
}

/// Every call at every size. A call is left out at the next sizes where it would take over `limit` seconds if it took four times as long. The
/// checks are measured before and after the calls, since what else the machine does can slow them for a while.
pub fn every_size(row: &'static Row, limit: f64) -> Result<Vec<Line>, String> {
    let mut lent = Lent::new();
    let mut lines: Vec<Line> = row.bounds.iter().map(|bound| Line { row, call: bound.0, times: Vec::new() }).collect();
    for (i, size) in row.sizes.into_iter().enumerate() {
        let within = |line: &Line| line.times.len() == i && line.times.last().is_none_or(|last| 4.0 * last.call <= limit);
        if !lines.iter().any(within) {
            break;
        }
        let Case { mut store, requests } = made(row, size);
        let before = checks(row, &store)?;
        for (line, request) in lines.iter_mut().zip(&requests) {
            if within(line) {
                let first = call(row, request, &mut store, &mut lent)?;
                line.times.push(Times { size, call: repeated(first, request, &mut store, &mut lent), checks: before });
            }
        }
        let checks = before.min(checks(row, &store)?);
        lines.iter_mut().filter_map(|line| line.times.get_mut(i)).for_each(|times| times.checks = checks);
    }
    Ok(lines)
}

/// Every call at the size of `--check`, once; again where it takes somewhat longer than its bound.
pub fn one_size(row: &'static Row) -> Result<Vec<Line>, String> {
    let mut lent = Lent::new();
    let Case { mut store, requests } = made(row, row.tried);
    let before = checks(row, &store)?;
    let mut taken = Vec::new();
    for (request, (_, bound)) in requests.iter().zip(row.bounds) {
        let (mut time, mut tries) = (call(row, request, &mut store, &mut lent)?, 1);
        let over = bound * before..FAR * bound * before;
        while over.contains(&time) && tries < TRIES {
            time = time.min(call(row, request, &mut store, &mut lent)?);
            tries += 1;
        }
        taken.push(time);
    }
    let checks = before.min(checks(row, &store)?);
    let line =
        |(bound, call): (&(&'static str, f64), f64)| Line { row, call: bound.0, times: vec![Times { size: row.tried, call, checks }] };
    Ok(row.bounds.iter().zip(taken).map(line).collect())
}
