//! Calls that read: equality, starts_with, flatten and compare_runs, on fields made by calls and on stores of any shape.
use crate::generate::{self, Made};
use crate::port::{Call, Field, Store};
use crate::random::Random;
use crate::tally::Tally;
use naldrev::TERM_WIDTH;

pub fn run(random: &mut Random, cases: usize, building: &mut Tally, tally: &mut Tally) {
    for _ in 0..cases {
        if tally.full() || building.full() {
            return;
        }
        let used = 1 + random.below(12);
        let mut store = generate::store(random, used, 0, 63);
        let arena = generate::arena(&store);
        let made = generate::fields(random, building, &mut store, &arena, 6, 60);
        for _ in 0..3 {
            let (f, g) = (random.pick(&made), random.pick(&made));
            both(tally, &store, &f, &g);
        }
        let count = 1 + random.below(16);
        generate::nodes(random, &mut store, count);
        for _ in 0..3 {
            let call = any_read(random, &store);
            tally.compare(&store, &call, None);
        }
    }
}

/// The two comparisons on fields that both sides made, also against value.rs itself.
fn both(tally: &mut Tally, store: &Store, f: &Made, g: &Made) {
    let asked = [(Call::Equal(f.field, g.field), f.plain == g.plain), (Call::StartsWith(f.field, g.field), f.plain.starts_with(&g.plain))];
    for (call, yes) in asked {
        let got = tally.compare(store, &call, None).expect("a call on fields");
        if got.values != [usize::from(yes)] {
            tally.differ(&format!("value.rs says {yes} of {call:?}"));
        }
    }
}

/// Any call that reads. One in two compares a field with a part of itself or with another that shows the same terms.
pub fn any_read(random: &mut Random, store: &Store) -> Call {
    let f = generate::any_field(random, store, 60);
    let g = if random.one_in(2) { generate::any_field(random, store, 60) } else { Field { node: f.node, len: random.below(f.len + 1) } };
    match random.below(4) {
        0 => Call::Equal(f, g),
        1 => Call::StartsWith(f, g),
        2 => {
            let room = random.pick(&[f.len, f.len + 1, f.len.saturating_sub(1), 0]);
            Call::Flatten(f, generate::slots(TERM_WIDTH * room))
        }
        _ => compare_runs(random, store.terms_used),
    }
}

fn compare_runs(random: &mut Random, used: usize) -> Call {
    let mut run = || {
        let len = random.below(used.min(3) + 1);
        (random.below(used - len + 1), len)
    };
    let ((a, b), (c, d)) = (run(), run());
    Call::CompareRuns(a, b, c, d)
}
