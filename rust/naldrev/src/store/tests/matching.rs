//! Patterns, starting bindings and the two calls that match.

use super::*;
use crate::pattern::{e, s, t, Item};

/// A pattern of two e-variables.
fn two_parts(store: &mut Store) -> Prepared {
    store.prepare(&[e("1").into(), e("2").into()]).unwrap()
}

#[test]
fn a_pattern_of_every_item() {
    let mut store = Store::new();
    let items = [
        Item::from('a'),
        Item::Identifier("Day".into()),
        Item::Number("7".into()),
        Item::Bracket(vec![s("1").into(), Item::Bracket(vec![])]),
        t("1").into(),
        e("1").into(),
        Item::Call,
        Item::Block,
    ];
    let pattern = store.prepare(&items).unwrap();
    let kinds: Vec<u32> = pattern.words().chunks(4).map(|r| r[0]).collect();
    assert_eq!(kinds, [0, 1, 2, 3, 5, 3, 4, 4, 6, 7, 8, 9]);
    assert_eq!(pattern.words()[3 * 4 + 1], 7);
    assert_eq!(pattern.words()[7 * 4 + 1], 3);
}

#[test]
fn patterns_that_break_their_rule() {
    let mut store = Store::new();
    for item in [Item::Identifier("9".into()), Item::Number("a".into()), e("").into(), s("a b").into()] {
        assert_eq!(refusal(store.prepare(&[e("kept-out").into(), item])), Refusal::BadPattern);
    }
    assert!(store.names().is_empty());
    let nest = |n: usize| (0..n).fold(Vec::new(), |inside, _| vec![Item::Bracket(inside)]);
    store.prepare(&nest(32)).unwrap();
    assert_eq!(refusal(store.prepare(&nest(33))), Refusal::BadPattern);
    let long = store.prepare(&vec![Item::Char('a'); 257]).unwrap();
    assert_eq!(refusal(store.first(Field::EMPTY, &long, &Bindings::NONE)), Refusal::Uneven);
    let bad = store.pattern_of_words(vec![10, 0, 0, 0]);
    assert_eq!(refusal(store.first(Field::EMPTY, &bad, &Bindings::NONE)), Refusal::BadPattern);
    let half = store.pattern_of_words(vec![0, 97]);
    assert_eq!(refusal(store.candidates(Field::EMPTY, &half, &Bindings::NONE, 1)), Refusal::Uneven);
}

#[test]
fn bindings_that_break_their_rule() {
    let (mut store, field) = store_of("a");
    let run = store.run(0, 1);
    assert_eq!(refusal(store.bindings(&[(e("kept-out"), run), (e("a.b"), run)])), Refusal::BadBinding);
    assert!(store.names().is_empty());
    assert_eq!(refusal(store.bindings(&[(e("a"), store.run(usize::MAX, 0))])), Refusal::PastEnd);
    let pattern = store.prepare(&[e("1").into()]).unwrap();
    let twice = store.bindings(&[(e("X"), run), (e("x"), run)]).unwrap();
    assert_eq!(refusal(store.candidates(field, &pattern, &twice, 1)), Refusal::BadBinding);
    let beyond = store.bindings(&[(e("X"), store.run(1, 1))]).unwrap();
    assert_eq!(refusal(store.candidates(field, &pattern, &beyond, 1)), Refusal::PastEnd);
    let half = store.bindings_of_words(vec![7, 0]);
    assert_eq!(refusal(store.candidates(field, &pattern, &half, 1)), Refusal::Uneven);
    assert_eq!(refusal(store.candidates(far(&store), &pattern, &Bindings::NONE, 1)), Refusal::BadField);
}

#[test]
fn candidates_with_a_start() {
    let (mut store, field) = store_of("abab");
    let pattern = two_parts(&mut store);
    let half = store.run(2, 2);
    let start = store.bindings(&[(e("1"), half)]).unwrap();
    let listing = store.candidates(field, &pattern, &start, 8).unwrap();
    assert_eq!(listing.variables(), [e("1"), e("2")]);
    assert_eq!(listing.len(), 1);
    let candidate = listing.get(0).unwrap();
    assert!(candidate.iter().eq([(&e("1"), half), (&e("2"), half)]));
}

#[test]
fn a_limit_leaves_more() {
    let (mut store, field) = store_of("aa");
    let pattern = two_parts(&mut store);
    for (limit, count, more) in [(2, 2, true), (3, 3, false), (0, 0, true), (usize::MAX, 3, false)] {
        let listing = store.candidates(field, &pattern, &Bindings::NONE, limit).unwrap();
        assert_eq!((listing.len(), listing.more()), (count, more), "{limit}");
    }
    let listing = store.candidates(field, &pattern, &Bindings::NONE, 1).unwrap();
    let first = store.first(field, &pattern, &Bindings::NONE).unwrap();
    assert_eq!(first.as_ref(), listing.get(0));
}

#[test]
fn a_long_list_of_a_scattered_field() {
    let (mut store, _) = store_of(&"ab".repeat(100));
    let field = store.from_runs(&[store.run(0, 100), store.run(101, 99)]).unwrap();
    let pattern = two_parts(&mut store);
    let listing = store.candidates(field, &pattern, &Bindings::NONE, 1000).unwrap();
    assert_eq!((listing.len(), listing.more()), (200, false));
    assert_eq!(store.terms_used(), 200 + 199);
    assert_eq!(listing.get(199).unwrap().run("e.1"), Some(store.run(200, 199)));
}

#[test]
fn no_names_give_one_slot() {
    let (mut store, field) = store_of("a");
    let pattern = store.prepare(&['a'.into()]).unwrap();
    let listing = store.candidates(field, &pattern, &Bindings::NONE, 5).unwrap();
    assert_eq!((listing.len(), listing.more()), (1, false));
    assert!(listing.variables().is_empty() && listing.get(0).unwrap().iter().next().is_none());
}

#[test]
fn none_is_listed_where_none_is_asked_for() {
    let (mut store, field) = scattered();
    for items in [vec!['a'.into(), 'c'.into()], vec![e("1").into()]] {
        let pattern = store.prepare(&items).unwrap();
        let listing = store.candidates(field, &pattern, &Bindings::NONE, 0).unwrap();
        assert!(listing.is_empty() && listing.more());
    }
    assert_eq!(store.terms_used(), 3, "no copy of the field is left");
}

#[test]
fn no_match_is_an_empty_list() {
    let (mut store, field) = scattered();
    let other = store.prepare(&['b'.into(), e("1").into()]).unwrap();
    let listing = store.candidates(field, &other, &Bindings::NONE, 1).unwrap();
    assert!(listing.is_empty() && !listing.more() && listing.variables() == [e("1")]);
    assert_eq!(store.first(field, &other, &Bindings::NONE), Ok(None));
    assert_eq!(store.terms_used(), 3, "no copy of the field is left");
}

#[test]
fn calls_and_blocks() {
    let (mut store, field) = scattered();
    for item in [Item::Call, Item::Block] {
        let pattern = store.prepare(&['a'.into(), item]).unwrap();
        assert_eq!(refusal(store.candidates(field, &pattern, &Bindings::NONE, 1)), Refusal::CallsAreNotPatterns);
        assert_eq!(refusal(store.first(field, &pattern, &Bindings::NONE)), Refusal::CallsAreNotPatterns);
    }
    assert_eq!(store.terms_used(), 3, "no copy of the field is left");
}

#[test]
fn the_settled_copy_needs_room() {
    let full = Capacity { terms: 3, max_terms: 3, ..Capacity::default() };
    let mut store = Store::with_capacity(full);
    store.add(&Value::chars("abc")).unwrap();
    let field = store.from_runs(&[store.run(2, 1), store.run(0, 1)]).unwrap();
    let pattern = store.prepare(&[e("1").into()]).unwrap();
    assert_eq!(refusal(store.candidates(field, &pattern, &Bindings::NONE, 1)), Refusal::TermsFull);
    assert_eq!(refusal(store.first(field, &pattern, &Bindings::NONE)), Refusal::TermsFull);
    assert_eq!(store.terms_used(), 3);
}

#[test]
fn a_candidate_by_name_and_by_order() {
    let (mut store, field) = store_of("a-b");
    let pattern = store.prepare(&[e("Left").into(), '-'.into(), s("right").into()]).unwrap();
    let candidate = store.first(field, &pattern, &Bindings::NONE).unwrap().unwrap();
    assert_eq!(candidate.run("e.left"), Some(store.run(0, 1)));
    assert_eq!(candidate.run("s.RIGHT"), Some(store.run(2, 1)));
    assert_eq!(candidate.get(&store, "s.RIGHT").unwrap().unwrap().run(), store.run(2, 1));
    assert!(candidate.get(&store, "t.right").unwrap().is_none());
    for absent in ["s.left", "left", "e.", "E.left", "", "e.left.x"] {
        assert_eq!(candidate.run(absent), None, "{absent}");
    }
    let read: Vec<_> = candidate.terms(&store).unwrap().map(|(v, terms)| (v.clone(), terms.read().unwrap().0)).collect();
    assert_eq!(read, [(e("left"), Value::chars("a")), (s("right"), Value::chars("b"))]);
}
