//! Stores of random words: every method answers, whatever it is given.

#[allow(dead_code)] // the random numbers alone are used here
mod generate;

use generate::Random;
use naldrev::{e, Bindings, Error, Expression, Field, Pattern, Run, Store, NODE_WIDTH, TERM_WIDTH};

const STORES: u64 = 4000;

/// A word that a record may have, one near it, or any.
fn word(random: &mut Random) -> u32 {
    match random.below(4) {
        0 => random.below(5) as u32,
        1 => random.below(12) as u32,
        2 => u32::MAX - random.below(3) as u32,
        _ => random.below(1 << 32) as u32,
    }
}

fn words(random: &mut Random, most: usize) -> Vec<u32> {
    (0..random.below(most + 1)).map(|_| word(random)).collect()
}

/// A count that is small, at a limit, or so large that its records have more words than can be counted.
fn number(random: &mut Random) -> usize {
    let least = [0, 0, 65_535, usize::MAX / TERM_WIDTH - 1, usize::MAX / 2, usize::MAX - 3][random.below(6)];
    least + random.below(4)
}

fn store(random: &mut Random) -> Store {
    let names = words(random, 30).into_iter().map(|word| word as u8).collect();
    let (mut terms, mut nodes) = (words(random, 50), words(random, 40));
    // Mostly whole records of a known kind, and node 0.
    if random.below(4) > 0 {
        terms.truncate(terms.len() / TERM_WIDTH * TERM_WIDTH);
        terms.iter_mut().step_by(TERM_WIDTH).for_each(|kind| *kind %= 5);
        nodes.truncate(nodes.len() / NODE_WIDTH * NODE_WIDTH);
        nodes.iter_mut().take(NODE_WIDTH).for_each(|word| *word = 0);
    }
    let terms_used = if random.below(2) == 0 { terms.len() / TERM_WIDTH } else { number(random) };
    let nodes_used = if random.below(2) == 0 { nodes.len().min(NODE_WIDTH) / NODE_WIDTH } else { number(random) };
    Store::from_parts(names, terms, terms_used, nodes, nodes_used)
}

fn read(store: &Store, run: Run) -> Result<(), Error> {
    let terms = store.terms(run)?;
    terms.to_string();
    terms.read().map(|_| ())
}

/// Has each method make something of a run and a field; how many did.
fn use_all(store: &mut Store, random: &mut Random, run: Run, field: Field) -> usize {
    let (count, start) = (number(random), number(random));
    let bindings = store.bindings_of_words(words(random, 20));
    let pattern = store.pattern_of_words(words(random, 20));
    let prepared = store.prepare(&"e.1 Day s.2".parse::<Pattern>().unwrap());
    let message: Expression = "A (B 'c')".parse().unwrap();
    let done = [
        read(store, run).is_ok(),
        store.compare_runs(run, run).is_ok(),
        store.from_runs(&[run]).is_ok(),
        store.values(field).is_ok(),
        store.take(field, count).is_ok(),
        store.rest(field, count).is_ok(),
        store.range(field, start, count).is_ok(),
        store.join(field, field).is_ok(),
        store.equal(field, field).is_ok(),
        store.starts_with(field, field).is_ok(),
        store.flatten(field, &mut vec![0; random.below(20)]).is_ok(),
        store.candidates(field, &pattern, &bindings, 4).is_ok(),
        prepared.is_ok_and(|pattern| store.first(field, &pattern, &Bindings::NONE).is_ok()),
        store.bindings(&[(e("x"), run)]).is_ok(),
        store.add_bracket(run).is_ok(),
        store.message(&message).is_ok(),
    ];
    done.into_iter().filter(|done| *done).count()
}

#[test]
fn every_method_answers() {
    let mut done = 0;
    for seed in 1..=STORES {
        let mut random = Random::new(seed);
        let mut store = store(&mut random);
        let mark = store.mark();
        let (run, field) = (store.run(number(&mut random), number(&mut random)), store.field(number(&mut random), number(&mut random)));
        done += use_all(&mut store, &mut random, run, field);
        let (run, field) = (store.run(0, 1), Field::EMPTY);
        done += use_all(&mut store, &mut random, run, field);
        store.put_back(mark).unwrap();
    }
    assert!(done > STORES as usize, "{done} calls did something");
}
