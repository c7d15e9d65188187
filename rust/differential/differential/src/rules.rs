//! Document 01's rules of records and arguments, with 02's change of terms (2.7), written from their text alone: the first of 1 to 9 that applies
//! to a call.
use crate::port::{Call, Field, Request, Store};

const LIMIT: usize = 65536;

pub const UNEVEN: usize = 1;
pub const BAD_TERM: usize = 2;
pub const BAD_NODE: usize = 3;
pub const BAD_FIELD: usize = 4;
pub const PAST_END: usize = 5;
pub const TOO_LONG: usize = 6;
pub const BAD_PATTERN: usize = 7;
pub const BAD_BINDING: usize = 8;
pub const TOO_MANY_NAMES: usize = 9;

/// Records that a slice can have at most, by its length and the limit.
pub fn capacity(words: &[u32], width: usize) -> usize {
    (words.len() / width).min(LIMIT)
}

fn whole(words: &[u32], width: usize) -> bool {
    words.len().is_multiple_of(width)
}

/// The first of 1 to 9 that applies, or 0.
pub fn refusal(store: &Store, call: &Call) -> usize {
    let terms = &store.terms;
    let even = store.names.len() <= LIMIT && whole(terms, 5) && store.terms_used <= capacity(terms, 5);
    let comparing = matches!(call, Call::CompareRuns(..));
    let nodes_even = whole(&store.nodes, 6) && store.nodes_used <= capacity(&store.nodes, 6);
    if !even || !(comparing || nodes_even) || !arguments_even(call) {
        return UNEVEN;
    }
    if !(0..store.terms_used).all(|i| term(store, i)) {
        return BAD_TERM;
    }
    if comparing {
        return arguments(store, call);
    }
    if store.nodes_used == 0 || !(0..store.nodes_used).all(|i| node(store, i)) {
        return BAD_NODE;
    }
    if !fields(call).into_iter().all(|f| field(store, f)) {
        return BAD_FIELD;
    }
    arguments(store, call)
}

fn arguments_even(call: &Call) -> bool {
    match call {
        Call::FromRuns(runs) => whole(runs, 2) && runs.len() / 2 <= 64,
        Call::Flatten(_, work) => whole(work, 5),
        Call::Match(r) => whole(&r.pattern, 4) && r.pattern.len() / 4 <= 256 && whole(&r.bindings, 5),
        _ => true,
    }
}

// ---- records ----

fn record(words: &[u32], width: usize, i: usize) -> Vec<u64> {
    words[i * width..(i + 1) * width].iter().map(|w| u64::from(*w)).collect()
}

/// A text of 1 to 255 bytes inside the names.
pub fn text(names: &[u8], offset: u64, len: u64) -> Option<&[u8]> {
    let inside = (1..=255).contains(&len) && offset + len <= names.len() as u64;
    inside.then(|| &names[offset as usize..(offset + len) as usize])
}

fn name_byte(b: &u8) -> bool {
    b.is_ascii_alphanumeric() || *b == b'-' || *b == b'_'
}

/// Char, Identifier and Number, as a term and as a pattern record.
fn symbol(names: &[u8], r: &[u64]) -> bool {
    let spelled = text(names, r[1], r[2]);
    match r[0] {
        0 => char::from_u32(r[1] as u32).is_some() && r[2] == 0 && r[3] == 0,
        1 => r[3] == 0 && spelled.is_some_and(|t| t[0].is_ascii_alphabetic() && t.iter().all(name_byte)),
        _ => r[3] == 0 && spelled.is_some_and(|t| t.iter().all(u8::is_ascii_digit)),
    }
}

/// A used term; those before it have passed. Its fifth word is the upper half of an unknown's level, and 0 elsewhere.
fn term(store: &Store, i: usize) -> bool {
    let r = record(&store.terms, 5, i);
    match r[0] {
        0..=3 if r[4] != 0 => false,
        0..=2 => symbol(&store.names, &r),
        3 => r[1] + r[2] <= i as u64 && r[3] == 1 + deepest(&store.terms, r[1] as usize, r[2] as usize) && r[3] <= 255,
        4 => r[1] <= 2,
        _ => false,
    }
}

fn deepest(terms: &[u32], start: usize, len: usize) -> u64 {
    let depth = |i: usize| if terms[5 * i] == 3 { u64::from(terms[5 * i + 3]) } else { 0 };
    (start..start + len).map(depth).max().unwrap_or(0)
}

/// A used node; those before it have passed.
fn node(store: &Store, i: usize) -> bool {
    let r = record(&store.nodes, 6, i);
    if (i == 0) != (r[0] == 0) {
        return false;
    }
    let lower = |n: u64| (n < i as u64).then(|| record(&store.nodes, 6, n as usize));
    match r[0] {
        0 => r.iter().all(|w| *w == 0),
        1 => {
            r[2] >= 1
                && r[1] + r[2] <= store.terms_used as u64
                && lower(r[3]).is_some_and(|tail| tail[0] <= 1 && made(&r, 1, r[2] + tail[5]))
        }
        2 => match (lower(r[1]), lower(r[3])) {
            (Some(left), Some(right)) => concat(&r, &left, &right),
            _ => false,
        },
        _ => false,
    }
}

fn concat(r: &[u64], left: &[u64], right: &[u64]) -> bool {
    let height = 1 + left[4].max(right[4]);
    left[0] != 0 && right[0] != 0 && (1..=left[5]).contains(&r[2]) && made(r, height, r[2] + right[5])
}

fn made(r: &[u64], height: u64, below: u64) -> bool {
    r[4] == height && r[5] == below.min(LIMIT as u64)
}

fn field(store: &Store, f: Field) -> bool {
    f.node < store.nodes_used && f.len <= store.nodes[6 * f.node + 5] as usize
}

fn fields(call: &Call) -> Vec<Field> {
    match call {
        Call::FromRuns(_) | Call::CompareRuns(..) => vec![],
        Call::Join(f, g) | Call::StartsWith(f, g) | Call::Equal(f, g) => vec![*f, *g],
        Call::Take(f, _) | Call::Rest(f, _) | Call::Range(f, ..) | Call::Flatten(f, _) => vec![*f],
        Call::Match(r) => vec![r.field],
    }
}

// ---- arguments: 5 to 9 ----

fn inside(start: usize, len: usize, end: usize) -> bool {
    start as u128 + len as u128 <= end as u128
}

fn run_inside(run: &[u32], used: usize) -> bool {
    inside(run[0] as usize, run[1] as usize, used)
}

fn arguments(store: &Store, call: &Call) -> usize {
    let used = store.terms_used;
    let or = |good: bool, number: usize| if good { 0 } else { number };
    match call {
        Call::FromRuns(runs) if !runs.chunks(2).all(|run| run_inside(run, used)) => PAST_END,
        Call::FromRuns(runs) => or(runs.chunks(2).map(|run| run[1] as usize).sum::<usize>() <= LIMIT, TOO_LONG),
        Call::Join(f, g) => or(f.len + g.len <= LIMIT, TOO_LONG),
        Call::Take(f, n) | Call::Rest(f, n) => or(inside(*n, 0, f.len), PAST_END),
        Call::Range(f, start, n) => or(inside(*start, *n, f.len), PAST_END),
        Call::CompareRuns(a, b, c, d) => or(inside(*a, *b, used) && inside(*c, *d, used), PAST_END),
        Call::Match(request) => matching(store, request),
        _ => 0,
    }
}

fn matching(store: &Store, r: &Request) -> usize {
    if !r.bindings.chunks(5).all(|b| run_inside(&b[3..], store.terms_used)) {
        return PAST_END;
    }
    if !pattern(&store.names, &r.pattern) {
        return BAD_PATTERN;
    }
    if !bindings(&store.names, &r.bindings) {
        return BAD_BINDING;
    }
    if entries(&store.names, &r.pattern, &r.bindings).len() > 64 {
        return TOO_MANY_NAMES;
    }
    0
}

fn variable(names: &[u8], r: &[u64]) -> bool {
    (5..=7).contains(&r[0]) && text(names, r[1], r[2]).is_some_and(|t| t.iter().all(name_byte))
}

fn pattern(names: &[u8], words: &[u32]) -> bool {
    let mut open: Vec<u64> = Vec::new();
    for i in 0..words.len() / 4 {
        let r = record(words, 4, i);
        let rest_is_zero = |from: usize| r[from..].iter().all(|w| *w == 0);
        let good = match r[0] {
            0..=2 => symbol(names, &r),
            3 => {
                open.push(i as u64);
                open.len() <= 32 && rest_is_zero(2)
            }
            4 => open.pop() == Some(r[1]) && u64::from(words[4 * r[1] as usize + 1]) == i as u64 && rest_is_zero(2),
            5..=7 => variable(names, &r) && r[3] == 0,
            8 | 9 => rest_is_zero(1),
            _ => false,
        };
        if !good {
            return false;
        }
    }
    open.is_empty()
}

fn bindings(names: &[u8], words: &[u32]) -> bool {
    let mut seen = Vec::new();
    for i in 0..words.len() / 5 {
        let r = record(words, 5, i);
        if !variable(names, &r) {
            return false;
        }
        let key = name(names, &words[5 * i..]);
        if seen.contains(&key) {
            return false;
        }
        seen.push(key);
    }
    true
}

/// A name: kind and text, ASCII case ignored.
pub type Name = (u32, String);

pub fn name(names: &[u8], record: &[u32]) -> Name {
    let spelled = text(names, record[1].into(), record[2].into()).expect("a name inside the names");
    (record[0], String::from_utf8_lossy(spelled).to_ascii_lowercase())
}

/// The names of a valid request: the start's, then first occurrence.
pub fn entries(names: &[u8], pattern: &[u32], bindings: &[u32]) -> Vec<Name> {
    let mut found: Vec<Name> = bindings.chunks(5).map(|b| name(names, b)).collect();
    for record in pattern.chunks(4).filter(|r| (5..=7).contains(&r[0])) {
        let key = name(names, record);
        if !found.contains(&key) {
            found.push(key);
        }
    }
    found
}
