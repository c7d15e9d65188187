//! The calls on fields.

use super::*;

#[test]
fn runs_in_order() {
    let (mut store, _) = store_of("abc");
    let field = store.from_runs(&[store.run(2, 1), store.run(0, 2)]).unwrap();
    assert_eq!(shown(&store, field), "cab");
    let one = store.run(0, 1);
    assert_eq!(refusal(store.from_runs(&[store.run(2, 2)])), Refusal::PastEnd);
    assert_eq!(refusal(store.from_runs(&[store.run(usize::MAX, 1)])), Refusal::PastEnd);
    assert_eq!(refusal(store.from_runs(&[one; 65])), Refusal::Uneven);
    assert_eq!(store.from_runs(&[one; 64]).unwrap().len(), 64);
}

#[test]
fn joined_in_order() {
    let (mut store, field) = store_of("ab");
    let other = store.take(field, 1).unwrap();
    let joined = store.join(field, other).unwrap();
    assert_eq!(shown(&store, joined), "aba");
    assert_eq!(refusal(store.join(field, far(&store))), Refusal::BadField);
    assert_eq!(store.join(Field::EMPTY, field).unwrap().node(), field.node());
}

#[test]
fn a_field_ends_at_65536_terms() {
    let (mut store, mut field) = store_of("a");
    for _ in 0..16 {
        field = store.join(field, field).unwrap();
    }
    assert_eq!(field.len(), 65_536);
    assert_eq!(refusal(store.join(field, field)), Refusal::TooLong);
}

#[test]
fn parts_of_a_field() {
    let (mut store, field) = store_of("abcd");
    let taken = store.take(field, 2).unwrap();
    assert_eq!(shown(&store, taken), "ab");
    let rest = store.rest(field, 3).unwrap();
    assert_eq!(shown(&store, rest), "d");
    let range = store.range(field, 1, 2).unwrap();
    assert_eq!(shown(&store, range), "bc");
    assert!(store.rest(field, 4).unwrap().is_empty());
    assert_eq!(refusal(store.take(field, 5)), Refusal::PastEnd);
    assert_eq!(refusal(store.rest(field, 5)), Refusal::PastEnd);
    assert_eq!(refusal(store.range(field, 1, 4)), Refusal::PastEnd);
    assert_eq!(refusal(store.range(field, 1, usize::MAX)), Refusal::PastEnd);
    assert_eq!(refusal(store.take(far(&store), 0)), Refusal::BadField);
    assert_eq!(refusal(store.rest(far(&store), 0)), Refusal::BadField);
    assert_eq!(refusal(store.range(store.field(field.node(), 5), 0, 0)), Refusal::BadField);
}

#[test]
fn nodes_grow_up_to_their_limit() {
    let small = Capacity { nodes: 1, max_nodes: 3, ..Capacity::default() };
    let mut store = Store::with_capacity(small);
    let run = store.add(&Value::chars("ab")).unwrap();
    let field = store.from_runs(&[run]).unwrap();
    let joined = store.join(field, field).unwrap();
    assert_eq!(refusal(store.join(joined, joined)), Refusal::NodesFull);
    assert_eq!(refusal(store.from_runs(&[run])), Refusal::NodesFull);
    assert_eq!(refusal(store.rest(field, 1)), Refusal::NodesFull);
    assert_eq!(refusal(store.range(field, 1, 1)), Refusal::NodesFull);
    assert_eq!((store.nodes_used(), store.node_words().len()), (3, 3 * 6));
    assert_eq!(shown(&store, joined), "abab");
}

#[test]
fn fields_compared() {
    let (mut store, field) = store_of("abab");
    let front = store.take(field, 2).unwrap();
    let back = store.rest(field, 2).unwrap();
    let middle = store.range(field, 1, 2).unwrap();
    assert_eq!(store.starts_with(field, back), Ok(true));
    assert_eq!(store.starts_with(field, middle), Ok(false));
    assert_eq!(store.starts_with(front, field), Ok(false));
    assert_eq!(refusal(store.starts_with(field, far(&store))), Refusal::BadField);
    assert_eq!(store.equal(front, back), Ok(true));
    assert_eq!(store.equal(front, middle), Ok(false));
    assert_eq!(refusal(store.equal(far(&store), front)), Refusal::BadField);
}

#[test]
fn runs_compared() {
    let mut store = Store::new();
    let first = store.add_identifier("Day").unwrap();
    let second = store.add_identifier("DAY").unwrap();
    let other = store.add_number("7").unwrap();
    assert_eq!(store.compare_runs(first, second), Ok(true));
    assert_eq!(store.compare_runs(first, other), Ok(false));
    assert_eq!(refusal(store.compare_runs(first, store.run(3, 1))), Refusal::PastEnd);
    let bad = raw(BAD_TERM, NIL);
    assert_eq!(refusal(bad.compare_runs(bad.run(0, 1), bad.run(0, 1))), Refusal::BadTerm);
    let uneven = Store::from_parts(Vec::new(), Vec::new(), 1, NIL.to_vec(), 1);
    assert_eq!(refusal(uneven.compare_runs(uneven.run(0, 0), uneven.run(0, 0))), Refusal::Uneven);
}

#[test]
fn flattened_in_the_store_or_in_the_work_buffer() {
    let (store, field) = store_of("ab");
    assert_eq!(store.flatten(field, &mut []), Ok(Flat::InStore(store.run(0, 2))));
    let (store, field) = scattered();
    let mut work = [7; 3 * TERM_WIDTH];
    assert_eq!(store.flatten(field, &mut work), Ok(Flat::InWork(2)));
    assert_eq!(work, [0, 97, 0, 0, 0, 0, 99, 0, 0, 0, 7, 7, 7, 7, 7]);
    assert_eq!(refusal(store.flatten(field, &mut [0; TERM_WIDTH])), Refusal::WorkShort);
    assert_eq!(refusal(store.flatten(field, &mut [0; 2 * TERM_WIDTH + 1])), Refusal::Uneven);
    assert_eq!(refusal(store.flatten(field, &mut [0; 8])), Refusal::Uneven);
    assert_eq!(refusal(store.flatten(far(&store), &mut work)), Refusal::BadField);
}

#[test]
fn every_call_checks_the_stores() {
    for (term, node, want) in [(BAD_TERM, NIL, Refusal::BadTerm), (CHAR, BAD_NODE, Refusal::BadNode)] {
        let mut store = raw(term, node);
        let f = Field::EMPTY;
        let run = store.run(0, 1);
        assert_eq!(refusal(store.from_runs(&[run])), want);
        assert_eq!(refusal(store.join(f, f)), want);
        assert_eq!(refusal(store.take(f, 0)), want);
        assert_eq!(refusal(store.rest(f, 0)), want);
        assert_eq!(refusal(store.range(f, 0, 0)), want);
        assert_eq!(refusal(store.starts_with(f, f)), want);
        assert_eq!(refusal(store.equal(f, f)), want);
        assert_eq!(refusal(store.flatten(f, &mut [])), want);
        assert_eq!(refusal(store.values(f)), want);
        let pattern = store.pattern_of_words(Vec::new());
        assert_eq!(refusal(store.candidates(f, &pattern, &Bindings::NONE, 1)), want);
        assert_eq!(refusal(store.first(f, &pattern, &Bindings::NONE)), want);
    }
}
