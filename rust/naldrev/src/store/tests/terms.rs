//! Making a store, adding terms and reading them back.

use super::*;
use crate::pattern::{e, Pattern};
use crate::value::{Expression, UnknownKind};

#[test]
fn a_new_store_has_node_0_alone() {
    let store = Store::default();
    assert_eq!((store.terms_used(), store.nodes_used()), (0, 1));
    assert!(store.names().is_empty());
    assert_eq!((store.term_words().len(), store.node_words().len()), (64 * TERM_WIDTH, 16 * NODE_WIDTH));
}

#[test]
fn capacity_is_kept_within_the_limits() {
    let all = Capacity { terms: usize::MAX, nodes: usize::MAX, max_terms: usize::MAX, max_nodes: usize::MAX };
    let store = Store::with_capacity(all);
    assert_eq!((store.term_words().len(), store.node_words().len()), (MAX_TERMS * TERM_WIDTH, MAX_NODES * NODE_WIDTH));
    let none = Capacity { terms: 0, nodes: 0, max_terms: 0, max_nodes: 0 };
    let mut store = Store::with_capacity(none);
    assert_eq!((store.term_words().len(), store.node_words().len()), (0, NODE_WIDTH));
    assert_eq!(refusal(store.add_char('a')), Refusal::TermsFull);
    assert!(store.from_runs(&[]).unwrap().is_empty());
}

#[test]
fn parts_are_taken_as_they_are() {
    let store = raw(CHAR, NIL);
    assert_eq!((store.names(), store.term_words(), store.node_words()), (&b"a1"[..], &CHAR[..], &NIL[..]));
}

#[test]
fn every_kind_of_term_comes_back() {
    let mut store = Store::new();
    let unknown = |kind| Value::Unknown { kind, level: 3 << 32 | 5, index: u32::MAX };
    let mut values = vec![
        Value::Char('\u{10ffff}'),
        Value::Identifier("Day-1_x".into()),
        Value::Number("007".into()),
        Value::Bracket(vec![]),
        Value::Bracket(vec![Value::Char('a'), Value::Bracket(vec![Value::Number("7".into())])]),
    ];
    values.extend(UnknownKind::ALL.map(unknown));
    let run = store.add(&values).unwrap();
    assert_eq!(run.len(), values.len());
    assert_eq!(store.terms(run).unwrap().read(), Ok(Expression(values.clone())));
    let field = store.from_runs(&[run]).unwrap();
    assert_eq!(store.values(field), Ok(Expression(values)));
}

#[test]
fn a_text_stands_in_the_names_once() {
    let mut store = Store::new();
    for text in ["Day", "Night", "Day"] {
        store.add_identifier(text).unwrap();
    }
    store.add_number("7").unwrap();
    store.prepare(&[e("Day").into(), e("7").into()]).unwrap();
    assert_eq!(store.names(), b"DayNight7");
}

#[test]
fn texts_that_break_their_rule() {
    let mut store = Store::new();
    let long = "a".repeat(256);
    for text in ["", "9a", "-", "a b", "é", long.as_str()] {
        assert_eq!(refusal(store.add_identifier(text)), Refusal::BadTerm, "{text}");
    }
    let long = "1".repeat(256);
    for text in ["", "a", "-1", long.as_str()] {
        assert_eq!(refusal(store.add_number(text)), Refusal::BadTerm, "{text}");
    }
    store.add_identifier(&"a".repeat(255)).unwrap();
    store.add_number(&"1".repeat(255)).unwrap();
    assert_eq!(store.from_runs(&[store.run(0, 2)]).unwrap().len(), 2);
}

#[test]
fn names_end_at_their_limit() {
    let mut store = Store::from_parts(vec![b'x'; MAX_NAMES - 1], Vec::new(), 0, NIL.to_vec(), 1);
    assert_eq!(store.add_identifier("ab"), Err(Error::NamesFull));
    let run = store.add_identifier("a").unwrap();
    assert_eq!(store.prepare(&[e("y").into()]), Err(Error::NamesFull));
    assert_eq!(store.bindings(&[(e("y"), run)]), Err(Error::NamesFull));
    store.bindings(&[(e("a"), run)]).unwrap();
}

#[test]
fn brackets_over_runs() {
    let mut store = Store::new();
    let inside = store.add_char('a').unwrap();
    let bracket = store.add_bracket(inside).unwrap();
    assert_eq!(store.terms(bracket).unwrap().read(), Ok(Expression(vec![Value::Bracket(vec![Value::Char('a')])])));
    for run in [store.run(0, 3), store.run(3, 0), store.run(usize::MAX, 1)] {
        assert_eq!(refusal(store.add_bracket(run)), Refusal::PastEnd);
    }
}

#[test]
fn brackets_255_deep() {
    let mut store = Store::new();
    let mut run = store.run(0, 0);
    for _ in 0..255 {
        run = store.add_bracket(run).unwrap();
    }
    assert_eq!(refusal(store.add_bracket(run)), Refusal::BadTerm);
    let field = store.from_runs(&[run]).unwrap();
    let values = store.values(field).unwrap();
    assert_eq!(store.add(&values).unwrap().len(), 1);
    assert_eq!(refusal(store.add(&[Value::Bracket(values.0)])), Refusal::BadTerm);
}

#[test]
fn a_thread_of_1_mb_is_enough() {
    let deep = || {
        let values = (0..255).fold(Vec::new(), |inside, _| vec![Value::Bracket(inside)]);
        let mut store = Store::new();
        let field = store.message(&values).unwrap();
        assert_eq!(store.values(field), Ok(Expression(values)));
        assert_eq!(store.terms(store.run(254, 1)).unwrap().to_string().len(), 2 * 255);
    };
    std::thread::Builder::new().stack_size(1 << 20).spawn(deep).unwrap().join().unwrap();
}

#[test]
fn a_refused_value_leaves_nothing() {
    let mut store = Store::with_capacity(Capacity { terms: 1, max_terms: 4, ..Capacity::default() });
    store.add_identifier("Day").unwrap();
    let bad = [Value::Bracket(vec![Value::Identifier("Night".into())]), Value::Number("x".into())];
    assert_eq!(refusal(store.add(&bad)), Refusal::BadTerm);
    assert_eq!(refusal(store.message(&bad)), Refusal::BadTerm);
    let long = ["A1", "A2", "A3", "A4"].map(|text| Value::Identifier(text.into()));
    assert_eq!(refusal(store.add(&long)), Refusal::TermsFull);
    assert_eq!((store.names(), store.terms_used(), store.nodes_used()), (&b"Day"[..], 1, 1));
}

#[test]
fn a_message_without_room_for_its_node_leaves_nothing() {
    let mut store = Store::with_capacity(Capacity { nodes: 1, max_nodes: 1, ..Capacity::default() });
    assert_eq!(refusal(store.message(&[Value::Identifier("Day".into())])), Refusal::NodesFull);
    assert_eq!((store.names().len(), store.terms_used()), (0, 0));
}

#[test]
fn terms_grow_up_to_their_limit() {
    let mut store = Store::with_capacity(Capacity { terms: 1, max_terms: 3, ..Capacity::default() });
    for _ in 0..3 {
        store.add_char('a').unwrap();
    }
    assert_eq!(refusal(store.add_char('a')), Refusal::TermsFull);
    assert_eq!(refusal(store.add_unknown(UnknownKind::Term, 0, 0)), Refusal::TermsFull);
    assert_eq!(refusal(store.add_identifier("Day")), Refusal::TermsFull);
    assert!(store.names().is_empty());
    assert_eq!(store.term_words().len(), 3 * TERM_WIDTH);
}

#[test]
fn a_count_past_its_slice_takes_no_terms() {
    let mut store = Store::from_parts(Vec::new(), CHAR.to_vec(), 2, NIL.to_vec(), 1);
    assert_eq!(refusal(store.add_char('a')), Refusal::Uneven);
    let mut store = Store::from_parts(Vec::new(), vec![0; TERM_WIDTH + 1], 0, NIL.to_vec(), 1);
    assert_eq!(refusal(store.add_char('a')), Refusal::Uneven);
}

#[test]
fn read_back_from_scattered_runs() {
    let (store, field) = scattered();
    assert_eq!(shown(&store, field), "ac");
    assert_eq!(refusal(store.values(far(&store))), Refusal::BadField);
    for run in [store.run(0, 4), store.run(usize::MAX, usize::MAX)] {
        assert_eq!(refusal(store.terms(run)), Refusal::PastEnd);
    }
}

#[test]
fn words_made_elsewhere_are_looked_at() {
    // An unknown kind of term, no character, a text past the names, no kind of unknown, and a bracket that holds itself.
    for term in [BAD_TERM, [0, 0xD800, 0, 0, 0], [1, 1, 2, 0, 0], [4, 3, 0, 0, 0], [3, 0, 1, 1, 0]] {
        let store = raw(term, NIL);
        let terms = store.terms(store.run(0, 1)).unwrap();
        assert_eq!(refusal(terms.read()), Refusal::BadTerm, "{term:?}");
    }
    let store = raw([3, 1, 1, 1, 0], NIL);
    let terms = store.terms(store.run(0, 1)).unwrap();
    assert_eq!(refusal(terms.read()), Refusal::PastEnd);
    assert_eq!(terms.to_string(), "...");
}

#[test]
fn a_fifth_word_where_no_level_is() {
    for [kind, a, b, c] in [[0, 97, 0, 0], [1, 0, 1, 0], [2, 1, 1, 0], [3, 0, 0, 1]] {
        let mut good = raw([kind, a, b, c, 0], NIL);
        let run = good.run(0, 1);
        assert_eq!(good.from_runs(&[run]).unwrap().len(), 1);
        assert_eq!(good.terms(run).unwrap().read().unwrap().len(), 1);
        let mut bad = raw([kind, a, b, c, 1], NIL);
        let run = bad.run(0, 1);
        assert_eq!(refusal(bad.from_runs(&[run])), Refusal::BadTerm);
        assert_eq!(refusal(bad.compare_runs(run, run)), Refusal::BadTerm);
        assert_eq!(refusal(bad.terms(run).unwrap().read()), Refusal::BadTerm);
        assert_eq!(bad.terms(run).unwrap().to_string(), "...");
    }
}

/// Each bracket holds the pair of brackets below it: 2^24 leaves.
fn large_tree() -> (Store, Run) {
    let mut store = Store::new();
    let mut run = store.add(&Value::chars("ab")).unwrap();
    for _ in 0..24 {
        let first = store.add_bracket(run).unwrap();
        store.add_bracket(run).unwrap();
        run = store.run(first.start(), 2);
    }
    (store, run)
}

#[test]
fn terms_are_shown_as_they_are_written() {
    let mut store = Store::new();
    let text = "Session 'ab' (Meter 0700 ()) ?e.1.2 'c'";
    let run = store.add(&text.parse::<Expression>().unwrap()).unwrap();
    assert_eq!(store.terms(run).unwrap().to_string(), text);
    assert_eq!(format!("{:?}", store.terms(run).unwrap()), format!("Terms({text})"));
    assert_eq!(format!("{store:?}"), "Store { names: 16, terms: 9, nodes: 1, .. }");
}

#[test]
fn a_tree_too_large_to_read() {
    let (mut store, run) = large_tree();
    assert_eq!(store.terms(run).unwrap().read(), Err(Error::TooLarge));
    let shown = store.terms(run).unwrap().to_string();
    assert!(shown.starts_with("((((((") && shown.ends_with(" ..."), "{} bytes", shown.len());
    let field = store.from_runs(&[run]).unwrap();
    assert_eq!(store.values(field), Err(Error::TooLarge));
}

#[test]
fn many_texts_are_added_in_linear_time() {
    // Some 9,000 different texts, many times over; a search through the names for each would take minutes.
    let values: Vec<Value> = (0..60_000).map(|i| Value::Number((i % 9_000).to_string())).collect();
    let mut store = Store::new();
    let run = store.add(&values).unwrap();
    assert_eq!(store.terms(run).unwrap().read().unwrap().0, values);
}

// ---- levels ----

/// The ends of the range, the last level whose upper half is 0, and the first above it.
const LEVELS: [u64; 4] = [0, (1 << 32) - 1, 1 << 32, u64::MAX];

#[test]
fn levels_stand_in_two_words() {
    let mut store = Store::new();
    for level in LEVELS {
        store.add_unknown(UnknownKind::Term, level, 7).unwrap();
    }
    let most = u32::MAX;
    let words = [[4, 1, 0, 7, 0], [4, 1, most, 7, 0], [4, 1, 0, 7, 1], [4, 1, most, 7, most]];
    assert_eq!(store.term_words()[..4 * TERM_WIDTH], *words.as_flattened());
}

#[test]
fn levels_come_back() {
    let mut store = Store::new();
    let text = LEVELS.map(|level| format!("?s.{level}.1")).join(" ");
    let values: Expression = text.parse().unwrap();
    let run = store.add(&values).unwrap();
    let field = store.from_runs(&[store.run(1, 3), store.run(0, 1)]).unwrap();
    assert_eq!(store.terms(run).unwrap().read().as_ref(), Ok(&values));
    assert_eq!(store.terms(run).unwrap().to_string(), text);
    // The field is no single run: its terms go through the work buffer.
    assert_eq!(store.values(field).unwrap().0, [&values[1..], &values[..1]].concat());
}

#[test]
fn unknowns_are_equal_by_the_whole_level() {
    let mut store = Store::new();
    let run = store.add(&"?s.5.1 ?s.4294967301.1 ?s.5.1 ?s.4294967300.1 ?s.4294967301.1".parse::<Expression>().unwrap()).unwrap();
    let equal = |first: usize, second: usize| store.compare_runs(store.run(first, 1), store.run(second, 1)).unwrap();
    assert!(equal(0, 2) && equal(1, 4));
    assert!(!equal(0, 1), "the lower half alone is equal");
    assert!(!equal(1, 3), "the upper half alone is equal");
    let pattern = store.prepare(&"e.1 s.x e.2 s.x".parse::<Pattern>().unwrap()).unwrap();
    let field = store.from_runs(&[run]).unwrap();
    let listing = store.candidates(field, &pattern, &Bindings::NONE, 2).unwrap();
    assert_eq!((listing.len(), listing.more()), (1, false));
    assert_eq!(listing.get(0).unwrap().run("s.x"), Some(store.run(1, 1)));
}
