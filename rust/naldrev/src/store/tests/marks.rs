//! Marks, and handles that know their store.

use super::*;
use crate::pattern::{e, s};

#[test]
fn put_back_frees_what_came_since() {
    let (mut store, field) = store_of("ab");
    let before = (store.names().to_vec(), store.terms_used(), store.nodes_used());
    let mark = store.mark();
    for _ in 0..2_000 {
        // Without marks, the copies alone would pass the limit of terms.
        let more = store.message(&[Value::Identifier("Day".into())]).unwrap();
        let joined = store.join(field, more).unwrap();
        let pattern = store.prepare(&[e("all").into()]).unwrap();
        for _ in 0..50 {
            assert_eq!(store.candidates(joined, &pattern, &Bindings::NONE, 1).unwrap().len(), 1);
        }
        store.put_back(mark).unwrap();
    }
    assert_eq!((store.names().to_vec(), store.terms_used(), store.nodes_used()), before);
    assert_eq!(shown(&store, field), "ab");
}

#[test]
fn what_came_after_the_mark_is_refused() {
    let (mut store, field) = store_of("ab");
    let run = store.run(0, 2);
    let kept = store.prepare(&[e("1").into()]).unwrap();
    let kept_start = store.bindings(&[(e("1"), run)]).unwrap();
    let mark = store.mark();
    let late = store.message(&Value::chars("cd")).unwrap();
    let late_run = store.run(2, 2);
    let late_pattern = store.prepare(&[s("late").into()]).unwrap();
    let late_start = store.bindings(&[(e("1"), late_run)]).unwrap();
    let late_mark = store.mark();
    store.put_back(mark).unwrap();

    // Others stand in their places.
    store.message(&Value::chars("xy")).unwrap();
    store.prepare(&[s("ever").into()]).unwrap();
    assert_eq!(store.values(late), Err(Error::PutBack));
    assert_eq!(store.join(field, late).err(), Some(Error::PutBack));
    assert_eq!(store.terms(late_run).err(), Some(Error::PutBack));
    assert_eq!(store.from_runs(&[late_run]).err(), Some(Error::PutBack));
    assert_eq!(store.first(field, &late_pattern, &Bindings::NONE), Err(Error::PutBack));
    assert_eq!(store.first(field, &kept, &late_start), Err(Error::PutBack));
    assert_eq!(store.put_back(late_mark), Err(Error::PutBack));

    assert_eq!(shown(&store, field), "ab");
    assert_eq!(store.terms(run).unwrap().len(), 2);
    assert!(store.first(field, &kept, &kept_start).unwrap().is_some());
    store.put_back(mark).unwrap();
}

#[test]
fn marks_inside_marks() {
    let mut store = Store::new();
    let outer = store.mark();
    let first = store.message(&Value::chars("a")).unwrap();
    let inner = store.mark();
    store.message(&Value::chars("b")).unwrap();
    store.put_back(inner).unwrap();
    let second = store.message(&Value::chars("c")).unwrap();
    assert_eq!((shown(&store, first), shown(&store, second)), ("a".into(), "c".into()));
    store.put_back(outer).unwrap();
    let third = store.message(&Value::chars("d")).unwrap();
    for gone in [first, second] {
        assert_eq!(store.values(gone), Err(Error::PutBack));
    }
    assert_eq!(store.put_back(inner), Err(Error::PutBack));
    store.put_back(store.mark()).unwrap();
    assert_eq!(shown(&store, third), "d");
    let last = store.mark();
    store.put_back(last).unwrap();
    store.put_back(outer).unwrap();
    assert_eq!(store.values(third), Err(Error::PutBack));
}

#[test]
fn handles_of_another_store() {
    let (mut store, field) = store_of("abc");
    let (mut other, _) = store_of("abc");
    let run = store.run(0, 1);
    let pattern = store.prepare(&[e("1").into()]).unwrap();
    let start = store.bindings(&[(e("1"), run)]).unwrap();
    let own = other.prepare(&[e("1").into()]).unwrap();
    assert_eq!(other.add_bracket(run), Err(Error::OtherStore));
    assert_eq!(other.bindings(&[(e("1"), run)]), Err(Error::OtherStore));
    assert_eq!(other.first(Field::EMPTY, &pattern, &Bindings::NONE), Err(Error::OtherStore));
    assert_eq!(other.first(Field::EMPTY, &own, &start), Err(Error::OtherStore));
    assert_eq!(other.put_back(store.mark()), Err(Error::OtherStore));
    let candidate = store.first(field, &pattern, &Bindings::NONE).unwrap().unwrap();
    assert_eq!(candidate.terms(&other).err(), Some(Error::OtherStore));
    assert_eq!(other.values(Field::EMPTY).unwrap().len(), 0);
}

#[test]
fn every_method_looks_whose_a_handle_is() {
    let (store, foreign) = store_of("abc");
    let foreign_run = store.run(0, 1);
    let (mut other, own) = store_of("abc");
    let own_run = other.run(0, 1);
    let pattern = other.prepare(&[e("1").into()]).unwrap();
    let answers = [
        other.take(foreign, 1).err(),
        other.rest(foreign, 1).err(),
        other.range(foreign, 1, 1).err(),
        other.join(foreign, own).err(),
        other.join(own, foreign).err(),
        other.starts_with(foreign, own).err(),
        other.starts_with(own, foreign).err(),
        other.equal(foreign, own).err(),
        other.equal(own, foreign).err(),
        other.flatten(foreign, &mut []).err(),
        other.values(foreign).err(),
        other.candidates(foreign, &pattern, &Bindings::NONE, 1).err(),
        other.first(foreign, &pattern, &Bindings::NONE).err(),
        other.compare_runs(foreign_run, own_run).err(),
        other.compare_runs(own_run, foreign_run).err(),
        other.from_runs(&[own_run, foreign_run]).err(),
        other.terms(foreign_run).err(),
    ];
    for (number, answer) in answers.into_iter().enumerate() {
        assert_eq!(answer, Some(Error::OtherStore), "{number}");
    }
}

#[test]
fn stores_and_handles_go_to_other_threads() {
    fn shared<T: Send + Sync>() {}
    shared::<(Store, Field, Run, Mark, Prepared, Bindings, Listing, Candidate)>();
}
