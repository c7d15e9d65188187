//! Every field and every pattern up to a size, over small alphabets.
use crate::generate::{self, Made};
use crate::port::{Call, Field, Request, Store};
use crate::rules;
use crate::tally::Tally;
use naldrev::TERM_WIDTH;
use original::value::ViewField;

const NAMES: &[u8] = b"xXy";
/// `a`, `b`, an empty bracket, and a bracket over `a b`.
const TERMS: [[u32; TERM_WIDTH]; 4] = [[0, 97, 0, 0, 0], [0, 98, 0, 0, 0], [3, 0, 0, 1, 0], [3, 0, 2, 1, 0]];
const A: [u32; 4] = [0, 97, 0, 0];
const S_X: [u32; 4] = [5, 0, 1, 0];
const T_Y: [u32; 4] = [6, 2, 1, 0];
const E_X: [u32; 4] = [7, 0, 1, 0];
const E_X_AGAIN: [u32; 4] = [7, 1, 1, 0];
const E_Y: [u32; 4] = [7, 2, 1, 0];
const CALL: [u32; 4] = [8, 0, 0, 0];
/// An Open and a Close get their partner's number where they have one.
const OPEN: [u32; 4] = [3, 0, 0, 0];
const CLOSE: [u32; 4] = [4, 0, 0, 0];

/// What patterns are made of: single records, in any order.
pub const RECORDS: &[&[[u32; 4]]] = &[&[A], &[S_X], &[T_Y], &[E_X], &[E_X_AGAIN], &[E_Y], &[OPEN], &[CLOSE], &[CALL]];
/// Or pieces with whole brackets. Whether a Call in a bracket is reached shows which splits are tried.
pub const PIECES: &[&[[u32; 4]]] = &[&[A], &[S_X], &[T_Y], &[E_X], &[E_Y], &[OPEN, CLOSE], &[OPEN, CALL, CLOSE], &[OPEN, E_X, CLOSE]];
/// Starting bindings: none, e.x empty, e.x `a`, s.x `b`, s.x of two terms.
const STARTS: [&[u32]; 5] = [&[], &[7, 0, 1, 0, 0], &[7, 1, 1, 0, 1], &[5, 0, 1, 1, 1], &[5, 0, 1, 0, 2]];

/// All lists over `0..size` of up to `longest` entries.
fn lists(size: usize, longest: usize) -> Vec<Vec<usize>> {
    let mut all: Vec<Vec<usize>> = vec![vec![]];
    let mut last = 0;
    for _ in 0..longest {
        let next = all.len();
        for i in last..next {
            for entry in 0..size {
                let mut list = all[i].clone();
                list.push(entry);
                all.push(list);
            }
        }
        last = next;
    }
    all
}

/// The records of a list, and whether its brackets nest.
fn pattern(alphabet: &[&[[u32; 4]]], list: &[usize]) -> (Vec<u32>, bool) {
    let mut words: Vec<u32> = list.iter().flat_map(|r| alphabet[*r].concat()).collect();
    let (mut open, mut nests) = (Vec::new(), true);
    for i in 0..words.len() / 4 {
        match (words[4 * i], open.last().copied()) {
            (3, _) => open.push(i),
            (4, Some(at)) => {
                words[4 * at + 1] = i as u32;
                words[4 * i + 1] = at as u32;
                open.pop();
            }
            (4, None) => nests = false,
            _ => {}
        }
    }
    (words, nests && open.is_empty())
}

/// The field that shows those terms, made by from_runs on both sides.
fn field(tally: &mut Tally, list: &[usize]) -> (Store, Made) {
    let mut terms = TERMS.concat();
    terms.resize(TERM_WIDTH * 16, 0);
    let store = Store { names: NAMES.to_vec(), terms, terms_used: TERMS.len(), nodes: vec![0; 6 * 8], nodes_used: 1 };
    let arena = generate::arena(&store);
    let runs = list.iter().flat_map(|t| [*t as u32, 1]).collect();
    let plain = ViewField::from_runs(list.iter().map(|t| arena.sub(*t, 1)).collect());
    let got = tally.compare(&store, &Call::FromRuns(runs), None).expect("a call on fields");
    let field = Field { node: got.values[0], len: got.values[1] };
    (got.store, Made { field, plain })
}

/// Fields of up to `terms` terms under patterns of up to `longest` entries of an alphabet, with `starts` of the starting bindings. Patterns
/// whose brackets do not nest are tried on fields of one term.
pub fn run(tally: &mut Tally, alphabet: &[&[[u32; 4]]], terms: usize, longest: usize, starts: usize) {
    let patterns: Vec<(Vec<u32>, bool)> = lists(alphabet.len(), longest).iter().map(|list| pattern(alphabet, list)).collect();
    for list in lists(TERMS.len(), terms) {
        let (store, made) = field(tally, &list);
        for (pattern, _) in patterns.iter().filter(|(_, nests)| *nests || list.len() == 1) {
            for bindings in &STARTS[..starts] {
                if tally.full() {
                    return;
                }
                ask(tally, &store, &made, pattern, bindings);
            }
        }
    }
}

fn ask(tally: &mut Tally, store: &Store, made: &Made, pattern: &[u32], bindings: &[u32]) {
    let names = rules::entries(&store.names, pattern, bindings).len();
    for (first, slots) in [(false, 40 * names), (true, 2 * names)] {
        let slots = generate::slots(slots);
        let request = Request { first, field: made.field, pattern: pattern.to_vec(), bindings: bindings.to_vec(), slots };
        tally.compare(store, &Call::Match(request), Some(&made.plain));
    }
}
