//! Brackets that share contents, so that comparing two of them term by term meets the same terms again and again.
use crate::names::LONG;
use crate::request::{Answer, Call, Case, E, Request, T, binding, both_matches, listing, variable};
use crate::store::{Field, Run, Store, TermWords, char_words, identifier_words, number_words};
use naldrev::MAX_DEPTH;

/// Names of variables in each store here: `1` at 0 and `2` at 1.
const NAMES: &[u8] = b"12";

/// Two brackets over groups of brackets, one group over the first terms but one and the other over the last: half of the `size` terms are at
/// the bottom, a quarter are in each group. Returns the first of the two, which are the last terms.
fn shared(store: &mut Store, size: usize, term: impl Fn(usize) -> TermWords) -> usize {
    let bottom = store.run((0..size / 2 - 1).map(term));
    let groups = [0, 1].map(|at| {
        let contents = Run { start: bottom.start + at, len: bottom.len - 1 };
        store.brackets(size / 4 - 1, 1, |_| contents)
    });
    groups.map(|group| store.bracket(group, 2))[0]
}

/// Over chars that are all the same.
fn shared_chars(size: usize) -> (Store, usize) {
    let mut store = Store::new(NAMES);
    let top = shared(&mut store, size, |_| char_words('a'));
    (store, top)
}

pub fn shared_contents(size: usize) -> Case {
    let (mut store, top) = shared_chars(size);
    let [left, right] = [top, top + 1].map(|term| store.field_of(&[Run::one(term)]));
    let both = store.field_of(&[Run { start: top, len: 2 }]);
    let mut requests = vec![Request::compared(Call::CompareRuns(Run::one(top), Run::one(top + 1)), true)];
    requests.push(Request::compared(Call::Equal(left, right), true));
    // `t.1 t.1` takes the first bracket.
    let [twice, _] = both_matches(both, &[variable(T, 0); 2], &[Run::one(top)], &[]);
    requests.push(twice);
    Case { store, requests }
}

/// So many times the first of the two brackets, compared with as many times the second.
const TOPS: usize = 16;

pub fn shared_sixteen(size: usize) -> Case {
    let (mut store, top) = shared_chars(size);
    let [left, right] = [top, top + 1].map(|term| store.field_of(&[Run::one(term); TOPS]));
    Case { store, requests: vec![Request::compared(Call::Equal(left, right), true)] }
}

/// Over one symbol whose text stands at two places of the names, in turns.
fn shared_symbols(size: usize, names: &[u8], words: fn(usize, usize) -> TermWords) -> Case {
    let mut store = Store::new(names);
    let top = shared(&mut store, size, |i| words(i % 2 * LONG, LONG));
    Case { store, requests: vec![Request::compared(Call::CompareRuns(Run::one(top), Run::one(top + 1)), true)] }
}

/// A long identifier, in small letters and in capitals.
pub fn shared_identifiers(size: usize) -> Case {
    shared_symbols(size, &[[b'n'; LONG], [b'N'; LONG]].concat(), identifier_words)
}

/// The number 7 after as many zeros as fit.
pub fn shared_numbers(size: usize) -> Case {
    let mut digits = [b'0'; LONG];
    digits[LONG - 1] = b'7';
    shared_symbols(size, &[digits, digits].concat(), number_words)
}

// ---- listings with a bracket given ----

/// `e.1 t.1 e.2 'q'` with `t.1` given. The field has terms that are all unlike `t.1`, but for one before the last, which is 'q'.
fn bound_listing(store: &mut Store, field: Run, given: usize) -> Request {
    let pattern = [variable(E, 0), variable(T, 0), variable(E, 1), char_words('q')[..4].try_into().expect("four words")];
    let before = Run { start: field.start, len: field.len - 2 };
    let after = Run { start: field.start + field.len - 1, len: 0 };
    let node = store.field_of(&[field]).node;
    let candidate = Answer::Candidate(vec![Run::one(given), before, after], Vec::new());
    listing(Field { node, len: field.len }, &pattern, &[binding(T, Run { start: 0, len: 1 }, Run::one(given))], candidate)
}

/// The field of `bound_listing`: brackets over `unlike`, one over `like`, and 'q'.
fn bound_field(store: &mut Store, unlike: &[Run], like: Run, depth: usize) -> Run {
    let mut field = store.brackets(unlike.len(), depth, |i| unlike[i]);
    store.bracket(like, depth);
    store.term(char_words('q'));
    field.len += 2;
    field
}

/// A third of the terms are chars, a third are in two groups as above, a third are brackets over the first group. The given one is over the
/// second group, whose last bracket alone has other terms.
pub fn shared_bound(size: usize) -> Case {
    let mut store = Store::new(NAMES);
    let chars = size / 3;
    store.run((0..chars).map(|i| char_words(if i + 1 < chars { 'a' } else { 'b' })));
    let count = size / 6;
    let first = store.brackets(count, 1, |_| Run { start: 0, len: chars - 2 });
    let second = store.brackets(count, 1, |i| Run { start: if i + 1 < count { 1 } else { 2 }, len: chars - 2 });
    let given = store.bracket(second, 2);
    let tops = size - store.terms_used - 2;
    let field = bound_field(&mut store, &vec![first; tops], second, 2);
    let request = bound_listing(&mut store, field, given);
    Case { store, requests: vec![request] }
}

/// A ladder: two chars, then two brackets a level, each over the two below, then a char at the top. Returns the run of the last three terms.
fn ladder(store: &mut Store, levels: usize, top: char) -> Run {
    let mut pair = store.run([char_words('a'); 2]);
    for depth in 1..=levels {
        pair = store.brackets(2, depth, |_| pair);
    }
    store.term(char_words(top));
    Run { start: pair.start, len: 3 }
}

/// Levels of the highest ladder below a bracket.
const HIGHEST: usize = MAX_DEPTH - 1;

/// Two of the highest ladders, which differ in the last char, and brackets over the one.
pub fn ladder_bound(size: usize) -> Case {
    let mut store = Store::new(NAMES);
    let [unlike, like] = ['x', 'y'].map(|top| ladder(&mut store, HIGHEST, top));
    let given = store.bracket(like, MAX_DEPTH);
    let tops = size - store.terms_used - 2;
    let field = bound_field(&mut store, &vec![unlike; tops], like, MAX_DEPTH);
    let request = bound_listing(&mut store, field, given);
    Case { store, requests: vec![request] }
}

/// Levels of a ladder that is just high enough for 2 to the power of it to be beyond the terms of any store.
const HIGH: usize = 18;

/// Ladders side by side, each with a bracket over it, and one that differs in the last char.
pub fn ladders_bound(size: usize) -> Case {
    let mut store = Store::new(NAMES);
    let count = size / (2 * HIGH + 4) - 2;
    let unlike: Vec<Run> = (0..count).map(|_| ladder(&mut store, HIGH, 'x')).collect();
    let [like, given] = [(); 2].map(|()| ladder(&mut store, HIGH, 'y'));
    let given = store.bracket(given, HIGH + 1);
    let field = bound_field(&mut store, &unlike, like, HIGH + 1);
    let request = bound_listing(&mut store, field, given);
    Case { store, requests: vec![request] }
}
