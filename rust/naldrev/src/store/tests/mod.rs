//! Every method of the store, and every answer that it can give.

use super::*;
use crate::records::MAX_NAMES;
use crate::value::Value;

mod fields;
mod marks;
mod matching;
mod terms;

/// A store with the characters of a text as its first terms, and the field of them.
fn store_of(text: &str) -> (Store, Field) {
    let mut store = Store::new();
    let field = store.message(&Value::chars(text)).unwrap();
    (store, field)
}

/// The characters of a field of nothing else.
fn shown(store: &Store, field: Field) -> String {
    let letter = |v: Value| match v {
        Value::Char(c) => c,
        other => panic!("no character: {other:?}"),
    };
    store.values(field).unwrap().into_iter().map(letter).collect()
}

/// Two runs that do not touch: a field of them is no single run.
fn scattered() -> (Store, Field) {
    let (mut store, _) = store_of("abc");
    let field = store.from_runs(&[store.run(0, 1), store.run(2, 1)]).unwrap();
    (store, field)
}

/// A field that a store does not have.
fn far(store: &Store) -> Field {
    store.field(999, 1)
}

/// A store of one term and one node whose words are given.
fn raw(term: [u32; TERM_WIDTH], node: [u32; NODE_WIDTH]) -> Store {
    Store::from_parts(b"a1".to_vec(), term.to_vec(), 1, node.to_vec(), 1)
}

/// What the library refused a call with.
fn refusal<T: std::fmt::Debug>(answer: Result<T, Error>) -> Refusal {
    match answer {
        Err(Error::Refused(refusal)) => refusal,
        other => panic!("no refusal: {other:?}"),
    }
}

const NIL: [u32; NODE_WIDTH] = [0; NODE_WIDTH];
const CHAR: [u32; TERM_WIDTH] = [0, 97, 0, 0, 0];
const BAD_TERM: [u32; TERM_WIDTH] = [9, 0, 0, 0, 0];
const BAD_NODE: [u32; NODE_WIDTH] = [1, 0, 0, 0, 0, 0];
