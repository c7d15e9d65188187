//! The port's calls: stores and arguments as owned words, and the static library's functions behind them. The benchmark (rust/benchmark) makes
//! its calls with this file too.

use naldrev::sys::*;

/// What every call is lent.
#[derive(Clone, PartialEq)]
pub struct Store {
    pub names: Vec<u8>,
    pub terms: Vec<u32>,
    pub terms_used: usize,
    pub nodes: Vec<u32>,
    pub nodes_used: usize,
}

#[derive(Clone, Copy, PartialEq, Debug)]
pub struct Field {
    pub node: usize,
    pub len: usize,
}

pub const EMPTY: Field = Field { node: 0, len: 0 };

/// The arguments of a listing; `slots` as they are lent.
#[derive(Clone, Debug)]
pub struct Request {
    pub first: bool,
    pub field: Field,
    pub pattern: Vec<u32>,
    pub bindings: Vec<u32>,
    pub slots: Vec<u32>,
}

#[derive(Clone, Debug)]
pub enum Call {
    FromRuns(Vec<u32>),
    Join(Field, Field),
    Take(Field, usize),
    Rest(Field, usize),
    Range(Field, usize, usize),
    StartsWith(Field, Field),
    Equal(Field, Field),
    Flatten(Field, Vec<u32>),
    CompareRuns(usize, usize, usize, usize),
    Match(Request),
}

/// An out parameter that a call left alone.
pub const LEFT_ALONE: usize = 0xABCDEF;

/// All that a call leaves: its number, the values it returned, the stores, and the slots or the work buffer.
#[derive(PartialEq)]
pub struct Outcome {
    pub answer: usize,
    pub values: Vec<usize>,
    pub store: Store,
    pub lent: Vec<u32>,
}

impl Outcome {
    /// A refusal: its number alone, nothing changed.
    pub fn refused(answer: usize, store: &Store, call: &Call) -> Self {
        Self { answer, values: vec![LEFT_ALONE; outs(call)], store: store.clone(), lent: lent(call) }
    }
}

/// How many values a call returns.
fn outs(call: &Call) -> usize {
    match call {
        Call::StartsWith(..) | Call::Equal(..) | Call::CompareRuns(..) => 1,
        Call::Flatten(..) => 3,
        _ => 2,
    }
}

/// The words lent for writing, beside the stores.
pub fn lent(call: &Call) -> Vec<u32> {
    match call {
        Call::Flatten(_, work) => work.clone(),
        Call::Match(request) => request.slots.clone(),
        _ => Vec::new(),
    }
}

/// Makes a call on a copy of the store.
pub fn run(store: &Store, call: &Call) -> Outcome {
    let mut store = store.clone();
    let mut values = vec![LEFT_ALONE; outs(call)];
    let mut lent = lent(call);
    let answer = match call {
        Call::FromRuns(_) | Call::Join(..) | Call::Rest(..) | Call::Range(..) => build(&mut store, call, &mut values),
        Call::Match(request) => list(&mut store, request, &mut lent, &mut values),
        _ => read(&store, call, &mut lent, &mut values),
    };
    Outcome { answer, values, store, lent }
}

/// Makes a call that builds a field in the store itself.
#[rustfmt::skip]
pub fn build(s: &mut Store, call: &Call, out: &mut [usize]) -> usize {
    let (n, nl, t, tl, tu) = (s.names.as_ptr(), s.names.len(), s.terms.as_ptr(), s.terms.len(), s.terms_used);
    let (d, dl, du) = (s.nodes.as_mut_ptr(), s.nodes.len(), &mut s.nodes_used as *mut usize);
    let [node, len] = out else { unreachable!() };
    match call {
        Call::FromRuns(runs) => unsafe { naldrev_from_runs(n, nl, t, tl, tu, d, dl, du, runs.as_ptr(), runs.len(), node, len) },
        Call::Join(f, g) => unsafe { naldrev_join(n, nl, t, tl, tu, d, dl, du, f.node, f.len, g.node, g.len, node, len) },
        Call::Rest(f, count) => unsafe { naldrev_rest(n, nl, t, tl, tu, d, dl, du, f.node, f.len, *count, node, len) },
        Call::Range(f, start, count) => unsafe { naldrev_range(n, nl, t, tl, tu, d, dl, du, f.node, f.len, *start, *count, node, len) },
        _ => unreachable!(),
    }
}

/// Makes a call that writes to no store.
#[rustfmt::skip]
pub fn read(s: &Store, call: &Call, work: &mut [u32], out: &mut [usize]) -> usize {
    let (n, nl, t, tl, tu) = (s.names.as_ptr(), s.names.len(), s.terms.as_ptr(), s.terms.len(), s.terms_used);
    let (d, dl, du, o) = (s.nodes.as_ptr(), s.nodes.len(), s.nodes_used, out.as_mut_ptr());
    match call {
        Call::Take(f, count) => unsafe { naldrev_take(n, nl, t, tl, tu, d, dl, du, f.node, f.len, *count, o, o.add(1)) },
        Call::StartsWith(f, g) => unsafe { naldrev_starts_with(n, nl, t, tl, tu, d, dl, du, f.node, f.len, g.node, g.len, o) },
        Call::Equal(f, g) => unsafe { naldrev_equal(n, nl, t, tl, tu, d, dl, du, f.node, f.len, g.node, g.len, o) },
        Call::Flatten(f, _) => {
            let (w, wl) = (work.as_mut_ptr(), work.len());
            unsafe { naldrev_flatten(n, nl, t, tl, tu, d, dl, du, f.node, f.len, w, wl, o, o.add(1), o.add(2)) }
        }
        Call::CompareRuns(a, b, c, e) => unsafe { naldrev_compare_runs(n, nl, t, tl, tu, *a, *b, *c, *e, o) },
        _ => unreachable!(),
    }
}

/// Makes a match on the store itself.
#[rustfmt::skip]
pub fn list(s: &mut Store, r: &Request, slots: &mut [u32], out: &mut [usize]) -> usize {
    let (n, nl, t, tl) = (s.names.as_ptr(), s.names.len(), s.terms.as_mut_ptr(), s.terms.len());
    let (d, dl, du, o) = (s.nodes.as_ptr(), s.nodes.len(), s.nodes_used, out.as_mut_ptr());
    let call = if r.first { naldrev_match_pattern_first } else { naldrev_match_pattern_with_bindings_candidates };
    let (p, pl, b, bl) = (r.pattern.as_ptr(), r.pattern.len(), r.bindings.as_ptr(), r.bindings.len());
    let (node, len, w, wl) = (r.field.node, r.field.len, slots.as_mut_ptr(), slots.len());
    unsafe { call(n, nl, t, tl, &mut s.terms_used, d, dl, du, node, len, p, pl, b, bl, w, wl, o, o.add(1)) }
}
