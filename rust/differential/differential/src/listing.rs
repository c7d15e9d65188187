//! Listing and first match on fields made by the same calls on both sides: values, order, counts, slots, the settled copy.
use crate::generate::{self, Made};
use crate::port::{Call, Outcome, Request, Store};
use crate::random::Random;
use crate::rules;
use crate::tally::Tally;
use naldrev::TERM_WIDTH;

pub fn run(random: &mut Random, cases: usize, building: &mut Tally, listing: &mut Tally, first: &mut Tally) {
    for _ in 0..cases {
        if listing.full() || first.full() || building.full() {
            return;
        }
        let used = 1 + random.below(14);
        let room = random.below(20);
        let mut store = generate::store(random, used, room, 63);
        let arena = generate::arena(&store);
        let calls = 1 + random.below(4);
        let made = generate::fields(random, building, &mut store, &arena, calls, 14);
        let made = generate::longer(random, &made, |made| made.field.len);
        let request = generate::request(random, &store, made.field);
        tight_terms(random, &mut store, made.field.len);
        list(random, listing, &store, &made, &request);
        head(random, first, &store, &made, &request);
    }
}

/// Sometimes just room for a settled copy, or one term too little.
fn tight_terms(random: &mut Random, store: &mut Store, len: usize) {
    let spare = match random.below(6) {
        0 => len,
        1 => len.saturating_sub(1),
        _ => return,
    };
    store.terms.resize(TERM_WIDTH * (store.terms_used + spare), 7);
}

fn with_slots(tally: &mut Tally, store: &Store, made: &Made, request: &Request, words: usize) -> Option<Outcome> {
    let call = Call::Match(Request { slots: generate::slots(words), ..request.clone() });
    tally.compare(store, &call, Some(&made.plain))
}

/// The whole list with ample slots; then with just enough words, and with fewer.
pub fn list(random: &mut Random, tally: &mut Tally, store: &Store, made: &Made, request: &Request) {
    let width = 2 * rules::entries(&store.names, &request.pattern, &request.bindings).len();
    let spare = random.below(3);
    let Some(got) = with_slots(tally, store, made, request, 100 * width + spare) else { return };
    if got.answer == 0 && random.one_in(2) {
        let words = got.values[0] * width;
        with_slots(tally, store, made, request, words);
        with_slots(tally, store, made, request, words.saturating_sub(1));
        with_slots(tally, store, made, request, random.below(words + 1));
    }
}

pub fn head(random: &mut Random, tally: &mut Tally, store: &Store, made: &Made, request: &Request) {
    let width = 2 * rules::entries(&store.names, &request.pattern, &request.bindings).len();
    let request = Request { first: true, ..request.clone() };
    let words = if random.one_in(4) { random.below(width + 1) } else { width + random.below(width + 1) };
    with_slots(tally, store, made, &request, words);
}
