//! The library's functions over the stores of this driver. All `unsafe` of the driver but that of the clock is here.
//!
//! Every pointer and length is of one slice or reference; those for writing are `&mut`, so they overlap nothing else. A thread of Rust has the
//! stack that a call needs.
use crate::request::{Match, Outcome};
use crate::store::{Field, Run, Store};
use naldrev::sys;

/// The field of a call that builds, which has to be accepted.
fn built(number: usize, node: usize, len: usize) -> Field {
    assert_eq!(number, 0, "a call that builds is refused");
    Field { node, len }
}

pub fn from_runs(s: &mut Store, runs: &[u32]) -> Field {
    let (mut node, mut len) = (0, 0);
    let number = unsafe {
        sys::naldrev_from_runs(
            s.names.as_ptr(), s.names.len(), s.terms.as_ptr(), s.terms.len(), s.terms_used, s.nodes.as_mut_ptr(), s.nodes.len(),
            &mut s.nodes_used, runs.as_ptr(), runs.len(), &mut node, &mut len,
        )
    };
    built(number, node, len)
}

pub fn join(s: &mut Store, left: Field, right: Field) -> Field {
    let (mut node, mut len) = (0, 0);
    let number = unsafe {
        sys::naldrev_join(
            s.names.as_ptr(), s.names.len(), s.terms.as_ptr(), s.terms.len(), s.terms_used, s.nodes.as_mut_ptr(), s.nodes.len(),
            &mut s.nodes_used, left.node, left.len, right.node, right.len, &mut node, &mut len,
        )
    };
    built(number, node, len)
}

pub fn rest(s: &mut Store, field: Field, count: usize) -> Field {
    let (mut node, mut len) = (0, 0);
    let number = unsafe {
        sys::naldrev_rest(
            s.names.as_ptr(), s.names.len(), s.terms.as_ptr(), s.terms.len(), s.terms_used, s.nodes.as_mut_ptr(), s.nodes.len(),
            &mut s.nodes_used, field.node, field.len, count, &mut node, &mut len,
        )
    };
    built(number, node, len)
}

/// The checks that every call makes, and nothing else: `take` of no terms of the empty field.
pub fn checks(s: &Store) -> usize {
    let (mut node, mut len) = (0, 0);
    unsafe {
        sys::naldrev_take(
            s.names.as_ptr(), s.names.len(), s.terms.as_ptr(), s.terms.len(), s.terms_used, s.nodes.as_ptr(), s.nodes.len(), s.nodes_used, 0,
            0, 0, &mut node, &mut len,
        )
    }
}

pub fn equal(s: &Store, left: Field, right: Field) -> Outcome {
    let mut yes = 0;
    let number = unsafe {
        sys::naldrev_equal(
            s.names.as_ptr(), s.names.len(), s.terms.as_ptr(), s.terms.len(), s.terms_used, s.nodes.as_ptr(), s.nodes.len(), s.nodes_used,
            left.node, left.len, right.node, right.len, &mut yes,
        )
    };
    Outcome { number, values: [yes, 0, 0] }
}

pub fn starts_with(s: &Store, field: Field, front: Field) -> Outcome {
    let mut yes = 0;
    let number = unsafe {
        sys::naldrev_starts_with(
            s.names.as_ptr(), s.names.len(), s.terms.as_ptr(), s.terms.len(), s.terms_used, s.nodes.as_ptr(), s.nodes.len(), s.nodes_used,
            field.node, field.len, front.node, front.len, &mut yes,
        )
    };
    Outcome { number, values: [yes, 0, 0] }
}

pub fn compare_runs(s: &Store, first: Run, second: Run) -> Outcome {
    let mut yes = 0;
    let number = unsafe {
        sys::naldrev_compare_runs(
            s.names.as_ptr(), s.names.len(), s.terms.as_ptr(), s.terms.len(), s.terms_used, first.start, first.len, second.start, second.len,
            &mut yes,
        )
    };
    Outcome { number, values: [yes, 0, 0] }
}

/// The values: whether in the work buffer, the start, the count.
pub fn flatten(s: &Store, field: Field, work: &mut [u32]) -> Outcome {
    let (mut in_work, mut start, mut count) = (0, 0, 0);
    let number = unsafe {
        sys::naldrev_flatten(
            s.names.as_ptr(), s.names.len(), s.terms.as_ptr(), s.terms.len(), s.terms_used, s.nodes.as_ptr(), s.nodes.len(), s.nodes_used,
            field.node, field.len, work.as_mut_ptr(), work.len(), &mut in_work, &mut start, &mut count,
        )
    };
    Outcome { number, values: [in_work, start, count] }
}

/// The values: the candidates written, the entries of each.
pub fn matching(s: &mut Store, m: &Match, slots: &mut [u32]) -> Outcome {
    let call =
        if m.first { sys::naldrev_match_pattern_first } else { sys::naldrev_match_pattern_with_bindings_candidates };
    let (mut count, mut entries) = (0, 0);
    let number = unsafe {
        call(
            s.names.as_ptr(), s.names.len(), s.terms.as_mut_ptr(), s.terms.len(), &mut s.terms_used, s.nodes.as_ptr(), s.nodes.len(),
            s.nodes_used, m.field.node, m.field.len, m.pattern.as_ptr(), m.pattern.len(), m.bindings.as_ptr(), m.bindings.len(),
            slots.as_mut_ptr(), slots.len(), &mut count, &mut entries,
        )
    };
    Outcome { number, values: [count, entries, 0] }
}
