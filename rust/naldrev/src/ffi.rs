//! The functions of the static library, as safe functions over slices. All `unsafe` of the crate is here; `sys` declares the functions.
//!
//! What each function of the library asks of its caller (include/naldrev.h): pointers that are not null and point to as many elements as said,
//! and no overlap between what is lent for writing and anything else. Rust's references give both: a slice's pointer is never null, and a
//! `&mut` overlaps no other reference, so that nothing else writes meanwhile. The library keeps no pointer, and answers any contents with a
//! number. The stack that a call needs (`STACK_BYTES`) is the thread's: where it is short, the guard page ends the program, for the library
//! touches each page of a large frame in turn.

use crate::sys::*;
use crate::Refusal;

/// The names and the terms, for reading.
#[derive(Clone, Copy)]
pub(crate) struct Terms<'a> {
    pub names: &'a [u8],
    pub words: &'a [u32],
    pub used: usize,
}

/// The nodes, for reading.
#[derive(Clone, Copy)]
pub(crate) struct Nodes<'a> {
    pub words: &'a [u32],
    pub used: usize,
}

/// The nodes, for writing.
pub(crate) struct NodesMut<'a> {
    pub words: &'a mut [u32],
    pub used: &'a mut usize,
}

/// A node and a length.
pub(crate) type Pair = (usize, usize);

/// What a call answered: its values, or the refusal.
fn answered<T>(number: usize, values: T) -> Result<T, Refusal> {
    match number {
        0 => Ok(values),
        n => Err(Refusal::of(n)),
    }
}

/// What a call that builds answered.
fn built(call: impl FnOnce(&mut usize, &mut usize) -> usize) -> Result<Pair, Refusal> {
    let (mut node, mut len) = (0, 0);
    let number = call(&mut node, &mut len);
    answered(number, (node, len))
}

/// What a call that compares answered.
fn compared(call: impl FnOnce(&mut usize) -> usize) -> Result<bool, Refusal> {
    let mut yes = 0;
    let number = call(&mut yes);
    answered(number, yes == 1)
}

pub(crate) fn from_runs(t: Terms, n: NodesMut, runs: &[u32]) -> Result<Pair, Refusal> {
    built(|node, len| {
        // SAFETY: every pointer and length is of one slice or reference; those for writing are `&mut`, so they overlap nothing.
        unsafe {
            naldrev_from_runs(
                t.names.as_ptr(), t.names.len(), t.words.as_ptr(), t.words.len(), t.used, n.words.as_mut_ptr(), n.words.len(), n.used,
                runs.as_ptr(), runs.len(), node, len,
            )
        }
    })
}

pub(crate) fn join(t: Terms, n: NodesMut, left: Pair, right: Pair) -> Result<Pair, Refusal> {
    built(|node, len| {
        // SAFETY: every pointer and length is of one slice or reference; those for writing are `&mut`, so they overlap nothing.
        unsafe {
            naldrev_join(
                t.names.as_ptr(), t.names.len(), t.words.as_ptr(), t.words.len(), t.used, n.words.as_mut_ptr(), n.words.len(), n.used,
                left.0, left.1, right.0, right.1, node, len,
            )
        }
    })
}

pub(crate) fn take(t: Terms, n: Nodes, field: Pair, count: usize) -> Result<Pair, Refusal> {
    built(|node, len| {
        // SAFETY: every pointer and length is of one slice or reference; those for writing are `&mut`, so they overlap nothing.
        unsafe {
            naldrev_take(
                t.names.as_ptr(), t.names.len(), t.words.as_ptr(), t.words.len(), t.used, n.words.as_ptr(), n.words.len(), n.used,
                field.0, field.1, count, node, len,
            )
        }
    })
}

pub(crate) fn rest(t: Terms, n: NodesMut, field: Pair, count: usize) -> Result<Pair, Refusal> {
    built(|node, len| {
        // SAFETY: every pointer and length is of one slice or reference; those for writing are `&mut`, so they overlap nothing.
        unsafe {
            naldrev_rest(
                t.names.as_ptr(), t.names.len(), t.words.as_ptr(), t.words.len(), t.used, n.words.as_mut_ptr(), n.words.len(), n.used,
                field.0, field.1, count, node, len,
            )
        }
    })
}

pub(crate) fn range(t: Terms, n: NodesMut, field: Pair, start: usize, count: usize) -> Result<Pair, Refusal> {
    built(|node, len| {
        // SAFETY: every pointer and length is of one slice or reference; those for writing are `&mut`, so they overlap nothing.
        unsafe {
            naldrev_range(
                t.names.as_ptr(), t.names.len(), t.words.as_ptr(), t.words.len(), t.used, n.words.as_mut_ptr(), n.words.len(), n.used,
                field.0, field.1, start, count, node, len,
            )
        }
    })
}

pub(crate) fn starts_with(t: Terms, n: Nodes, field: Pair, front: Pair) -> Result<bool, Refusal> {
    compared(|yes| {
        // SAFETY: every pointer and length is of one slice or reference; the one for writing is `&mut`, so it overlaps nothing.
        unsafe {
            naldrev_starts_with(
                t.names.as_ptr(), t.names.len(), t.words.as_ptr(), t.words.len(), t.used, n.words.as_ptr(), n.words.len(), n.used,
                field.0, field.1, front.0, front.1, yes,
            )
        }
    })
}

pub(crate) fn equal(t: Terms, n: Nodes, left: Pair, right: Pair) -> Result<bool, Refusal> {
    compared(|yes| {
        // SAFETY: every pointer and length is of one slice or reference; the one for writing is `&mut`, so it overlaps nothing.
        unsafe {
            naldrev_equal(
                t.names.as_ptr(), t.names.len(), t.words.as_ptr(), t.words.len(), t.used, n.words.as_ptr(), n.words.len(), n.used, left.0,
                left.1, right.0, right.1, yes,
            )
        }
    })
}

pub(crate) fn compare_runs(t: Terms, first: Pair, second: Pair) -> Result<bool, Refusal> {
    compared(|yes| {
        // SAFETY: every pointer and length is of one slice or reference; the one for writing is `&mut`, so it overlaps nothing.
        unsafe {
            naldrev_compare_runs(
                t.names.as_ptr(), t.names.len(), t.words.as_ptr(), t.words.len(), t.used, first.0, first.1, second.0, second.1, yes,
            )
        }
    })
}

/// Where flatten put the terms: whether in the work buffer, their start and their count.
pub(crate) fn flatten(t: Terms, n: Nodes, field: Pair, work: &mut [u32]) -> Result<(bool, usize, usize), Refusal> {
    let (mut in_work, mut start, mut count) = (0, 0, 0);
    // SAFETY: every pointer and length is of one slice or reference; those for writing are `&mut`, so they overlap nothing.
    let number = unsafe {
        naldrev_flatten(
            t.names.as_ptr(), t.names.len(), t.words.as_ptr(), t.words.len(), t.used, n.words.as_ptr(), n.words.len(), n.used, field.0,
            field.1, work.as_mut_ptr(), work.len(), &mut in_work, &mut start, &mut count,
        )
    };
    answered(number, (in_work == 1, start, count))
}

/// What the two matching calls are lent besides the names.
pub(crate) struct Request<'a> {
    pub terms: &'a mut [u32],
    pub terms_used: &'a mut usize,
    pub nodes: Nodes<'a>,
    pub field: Pair,
    pub pattern: &'a [u32],
    pub bindings: &'a [u32],
    pub slots: &'a mut [u32],
}

/// The slots written, the entries of each, and whether a further candidate exists.
pub(crate) struct Listed {
    pub count: usize,
    pub entries: usize,
    pub more: bool,
}

/// The list of candidates, or its head alone.
pub(crate) fn matching(names: &[u8], r: Request, head: bool) -> Result<Listed, Refusal> {
    let call = if head { naldrev_match_pattern_first } else { naldrev_match_pattern_with_bindings_candidates };
    let (mut count, mut entries) = (0, 0);
    // SAFETY: every pointer and length is of one slice or reference; those for writing are `&mut`, so they overlap nothing.
    let number = unsafe {
        call(
            names.as_ptr(), names.len(), r.terms.as_mut_ptr(), r.terms.len(), r.terms_used, r.nodes.words.as_ptr(), r.nodes.words.len(),
            r.nodes.used, r.field.0, r.field.1, r.pattern.as_ptr(), r.pattern.len(), r.bindings.as_ptr(), r.bindings.len(),
            r.slots.as_mut_ptr(), r.slots.len(), &mut count, &mut entries,
        )
    };
    let more = number == 15;
    answered(if more { 0 } else { number }, Listed { count, entries, more })
}

/// The names of pattern and bindings together; 0 where a listing refuses them.
pub(crate) fn name_count(names: &[u8], pattern: &[u32], bindings: &[u32]) -> usize {
    // SAFETY: every pointer and length is of one slice; nothing is written.
    unsafe { naldrev_name_count(names.as_ptr(), names.len(), pattern.as_ptr(), pattern.len(), bindings.as_ptr(), bindings.len()) }
}

/// The counts of a sheet, and where its name bytes start in the text.
#[derive(Default)]
pub(crate) struct Counts {
    pub terms: usize,
    pub name_start: usize,
    pub names: usize,
    pub pattern: usize,
    pub runs: usize,
}

pub(crate) fn read_sheet(text: &[u8], terms: &mut [u32], pattern: &mut [u32], runs: &mut [u32]) -> Result<Counts, Refusal> {
    let mut c = Counts::default();
    // SAFETY: every pointer and length is of one slice or reference; those for writing are `&mut`, so they overlap nothing.
    let number = unsafe {
        naldrev_read_sheet(
            text.as_ptr(), text.len(), terms.as_mut_ptr(), terms.len(), pattern.as_mut_ptr(), pattern.len(), runs.as_mut_ptr(),
            runs.len(), &mut c.terms, &mut c.name_start, &mut c.names, &mut c.pattern, &mut c.runs,
        )
    };
    answered(number, c)
}

/// The bytes written.
pub(crate) fn write_sheet(terms: &[u32], names: &[u8], pattern: &[u32], runs: &[u32], out: &mut [u8]) -> Result<usize, Refusal> {
    let mut written = 0;
    // SAFETY: every pointer and length is of one slice or reference; those for writing are `&mut`, so they overlap nothing.
    let number = unsafe {
        naldrev_write_sheet(
            terms.as_ptr(), terms.len(), names.as_ptr(), names.len(), pattern.as_ptr(), pattern.len(), runs.as_ptr(), runs.len(),
            out.as_mut_ptr(), out.len(), &mut written,
        )
    };
    answered(number, written)
}

/// The bytes written.
pub(crate) fn run_sheet(text: &[u8], out: &mut [u8]) -> Result<usize, Refusal> {
    let mut written = 0;
    // SAFETY: every pointer and length is of one slice or reference; those for writing are `&mut`, so they overlap nothing.
    let number = unsafe { naldrev_run_sheet(text.as_ptr(), text.len(), out.as_mut_ptr(), out.len(), &mut written) };
    answered(number, written)
}
