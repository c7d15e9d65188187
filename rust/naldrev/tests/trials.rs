//! The trial messages of docs/REFERENCE.md, through the safe interface and the text form.

use naldrev::{Bindings, Error, Expression, Item, Listing, Pattern, Refusal, Store, Value};

/// Lists a pattern on a message, from no bindings.
fn list(pattern: &[Item], message: &[Value]) -> (Store, Result<Listing, Error>) {
    let mut store = Store::new();
    let field = store.message(message).unwrap();
    let pattern = store.prepare(pattern).unwrap();
    let listing = store.candidates(field, &pattern, &Bindings::NONE, 64);
    if let Ok(listing) = &listing {
        assert!(!listing.more());
        let first = store.first(field, &pattern, &Bindings::NONE).unwrap();
        assert_eq!(first.as_ref(), listing.get(0));
    }
    (store, listing)
}

fn list_text(pattern: &str, message: &str) -> (Store, Result<Listing, Error>) {
    list(&pattern.parse::<Pattern>().unwrap(), &message.parse::<Expression>().unwrap())
}

/// What each candidate gives the variables, one text for each candidate.
fn found(pattern: &str, message: &str) -> Vec<String> {
    let (store, listing) = list_text(pattern, message);
    let text = |c: &naldrev::Candidate| c.terms(&store).unwrap().map(|(v, terms)| format!("{v}[{terms}]")).collect::<Vec<_>>().join(" ");
    listing.unwrap().iter().map(text).collect()
}

#[track_caller]
fn nowhere(pattern: &str, message: &str) {
    assert_eq!(found(pattern, message), [""; 0]);
}

#[test]
fn empty_pattern() {
    assert_eq!(found("", ""), [""]);
    nowhere("", "'a'");
}

#[test]
fn e_on_the_empty_field() {
    assert_eq!(found("e.1", ""), ["e.1[]"]);
}

#[test]
fn e_dash_e() {
    assert_eq!(found("e.1 '-' e.2", "'--'"), ["e.1[] e.2['-']", "e.1['-'] e.2[]"]);
}

#[test]
fn one_name_in_two_cases() {
    assert_eq!(found("e.X e.x", "'aa'"), ["e.X['a']"]);
    nowhere("e.X e.x", "'aaa'");
}

#[test]
fn s_and_t_on_a_bracket() {
    nowhere("s.1", "('a')");
    assert_eq!(found("t.1", "('a')"), ["t.1[('a')]"]);
}

#[test]
fn unknowns() {
    nowhere("s.1", "?t.0.1");
    assert_eq!(found("s.1", "?s.0.1"), ["s.1[?s.0.1]"]);
    nowhere("t.1", "?e.0.1");
    assert_eq!(found("e.1", "?e.0.1"), ["e.1[?e.0.1]"]);
}

#[test]
fn unknowns_of_levels_past_32_bits() {
    assert_eq!(found("s.1 s.1", "?s.18446744073709551615.1 ?s.18446744073709551615.1"), ["s.1[?s.18446744073709551615.1]"]);
    nowhere("s.1 s.1", "?s.5.1 ?s.4294967301.1");
    assert_eq!(found("e.1 s.x e.2 s.x e.3", "?s.5.1 ?s.4294967301.1 ?s.4294967301.1"), ["e.1[?s.5.1] s.x[?s.4294967301.1] e.2[] e.3[]"]);
}

#[test]
fn numbers_without_leading_zeros_and_identifiers_without_case() {
    assert_eq!(found("7", "007"), [""]);
    assert_eq!(found("000", "0"), [""]);
    nowhere("7", "70");
    nowhere("7", "0");
    assert_eq!(found("Day", "DAY"), [""]);
}

#[test]
fn bindings_keep_the_spelling_received() {
    assert_eq!(found("s.1 s.1", "007 7"), ["s.1[007]"]);
    assert_eq!(found("e.1 e.1", "7 (00) 007 (0)"), ["e.1[7 (00)]"]);
    assert_eq!(found("(kWh 42) s.1", "(KWH 0042) 0042"), ["s.1[0042]"]);
}

#[test]
fn one_name_of_two_kinds() {
    assert_eq!(found("s.A e.A", "'ab'"), ["s.A['a'] e.A['b']"]);
}

#[test]
fn calls() {
    nowhere("'a' <F>", "'b'");
    assert_eq!(list_text("'a' <F>", "'a'").1, Err(Refusal::CallsAreNotPatterns.into()));
    nowhere("e.1 (<F>) 'x'", "() 'y'");
}

#[test]
fn names_64_and_65() {
    let names = |n: usize| (0..n).map(|i| naldrev::e(&i.to_string()).into()).collect::<Vec<Item>>();
    assert_eq!(list(&names(64), &[]).1.unwrap().variables().len(), 64);
    assert_eq!(list(&names(65), &[]).1, Err(Refusal::TooManyNames.into()));
}

#[test]
fn rest_by_the_length() {
    let mut store = Store::new();
    let field = store.message(&Value::chars("ab")).unwrap();
    assert!(store.rest(field, 2).unwrap().is_empty());
    assert_eq!(store.rest(field, 3).err(), Some(Refusal::PastEnd.into()));
}
