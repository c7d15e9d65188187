//! Lists of calls, each on what the last one left: new nodes and settled copies are used by the calls after them.
use crate::generate;
use crate::port::{Call, Store};
use crate::random::Random;
use crate::reading;
use crate::shapes;
use crate::tally::Tally;

pub fn run(random: &mut Random, cases: usize, tally: &mut Tally) {
    for _ in 0..cases {
        if tally.full() {
            return;
        }
        let (used, room, nodes) = (1 + random.below(8), random.below(60), random.below(60));
        let mut store = generate::store(random, used, room, nodes);
        for _ in 0..12 {
            let call = any_call(random, &store);
            if let Some(got) = tally.compare(&store, &call, None) {
                store = got.store;
            }
        }
    }
}

/// Any call on fields of the store.
pub fn any_call(random: &mut Random, store: &Store) -> Call {
    match random.below(4) {
        0 => shapes::any_build(random, store),
        1 => reading::any_read(random, store),
        _ => {
            let field = generate::any_field(random, store, 12);
            let mut request = generate::request(random, store, field);
            request.first = random.one_in(3);
            request.slots = generate::slots(random.below(60));
            Call::Match(request)
        }
    }
}
