//! The nodes that building calls make: shape, order and sharing, with just enough nodes and too few.
use crate::generate::{self, Made};
use crate::port::{Call, Field, Store};
use crate::random::Random;
use crate::tally::{Tally, describe};
use original::value::{Slice, Value, ViewField};

/// Fields grown by many calls. The Rust's own print of each field is held against the port's nodes.
pub fn made_by_calls(random: &mut Random, cases: usize, tally: &mut Tally) {
    for _ in 0..cases {
        if tally.full() {
            return;
        }
        let used = 1 + random.below(8);
        let mut store = generate::store(random, used, 0, 200);
        store.terms = [0, 97, 0, 0, 0].repeat(used);
        let arena = Slice::owned(vec![Value::Char('a'); used]);
        let seq = format!("{:?}", arena.terms());
        let mut made: Vec<Made> = Vec::new();
        for _ in 0..20 {
            let (call, plain) = generate::build(random, &store, &arena, &made);
            if plain.len() > 300 {
                continue;
            }
            let tight = tight_nodes(random, &store);
            tally.compare(&tight, &call, None);
            step(tally, &mut store, &mut made, &call, plain, &seq);
        }
    }
}

fn step(tally: &mut Tally, store: &mut Store, made: &mut Vec<Made>, call: &Call, plain: ViewField, seq: &str) {
    let got = tally.compare(store, call, None).expect("a call on fields");
    if got.answer != 0 || printed_size(&got.store) > 2000 {
        return;
    }
    let field = Field { node: got.values[0], len: got.values[1] };
    let printed = format!("ViewField {{ node: {}, len: {} }}", printed(&got.store.nodes, field.node, seq), field.len);
    if printed != format!("{plain:?}") {
        tally.differ(&format!("the Rust has {plain:?}\n{}", describe(store, call, None, &got)));
    }
    *store = got.store;
    made.push(Made { field, plain });
}

/// Nodes that the print of the last node would have, shared ones each time.
fn printed_size(store: &Store) -> usize {
    let mut sizes: Vec<usize> = Vec::new();
    for r in store.nodes[..6 * store.nodes_used].chunks(6) {
        let child = |i: usize| sizes[r[i] as usize];
        sizes.push(match r[0] {
            0 => 1,
            1 => child(3).saturating_add(1),
            _ => child(1).saturating_add(child(3)).saturating_add(1),
        });
    }
    sizes[sizes.len() - 1]
}

/// A node of the port in the form in which the Rust prints its own.
fn printed(nodes: &[u32], node: usize, seq: &str) -> String {
    let r = &nodes[6 * node..6 * node + 6];
    let child = |i: usize| printed(nodes, r[i] as usize, seq);
    match r[0] {
        0 => "Nil".into(),
        1 => format!("Cons(Slice {{ seq: {seq}, start: {}, len: {} }}, {})", r[1], r[2], child(3)),
        _ => format!("Concat({}, {}, {}, {})", child(1), r[2], child(3), r[4]),
    }
}

/// The store with few unused nodes, or none.
fn tight_nodes(random: &mut Random, store: &Store) -> Store {
    let mut tight = store.clone();
    tight.nodes.truncate(6 * (store.nodes_used + random.below(5)));
    tight
}

/// Calls on valid stores of any shape, with nodes enough and with few.
pub fn any_store(random: &mut Random, cases: usize, tally: &mut Tally) {
    for _ in 0..cases {
        if tally.full() {
            return;
        }
        let used = 1 + random.below(8);
        let mut store = generate::store(random, used, 0, 0);
        let count = 1 + random.below(24);
        generate::nodes(random, &mut store, count);
        store.nodes.resize(6 * (store.nodes_used + random.below(60)), 9);
        for _ in 0..4 {
            let call = any_build(random, &store);
            tally.compare(&store, &call, None);
            let tight = tight_nodes(random, &store);
            tally.compare(&tight, &call, None);
        }
    }
}

/// Any call that builds; a few reach past their field.
pub fn any_build(random: &mut Random, store: &Store) -> Call {
    let (f, g) = (generate::any_field(random, store, 400), generate::any_field(random, store, 400));
    let (start, len) = (random.below(f.len + 1), random.below(f.len + 1));
    let fitting = if random.one_in(8) { len } else { len.min(f.len - start) };
    match random.below(8) {
        0 => Call::FromRuns(generate::runs(random, store, 6, 4)),
        1 => Call::Take(f, start + usize::from(random.one_in(8))),
        2 | 3 => Call::Rest(f, start + usize::from(random.one_in(8))),
        4 => Call::Range(f, start, fitting),
        _ => Call::Join(f, g),
    }
}
