//! Damaged inputs: valid calls with one or a few words, counts or lengths changed. The port has to refuse with the number that the rules
//! give, or, where they still hold, to agree with the original.
use crate::chains;
use crate::generate;
use crate::near;
use crate::port::{Call, Field, Store};
use crate::random::Random;
use crate::tally::Tally;
use naldrev::TERM_WIDTH;

pub fn run(random: &mut Random, cases: usize, tally: &mut Tally) {
    for _ in 0..cases {
        if tally.full() {
            return;
        }
        let (used, room) = (1 + random.below(10), random.below(12));
        let mut store = generate::store(random, used, room, 0);
        let count = random.below(10);
        generate::nodes(random, &mut store, count);
        store.nodes.resize(store.nodes.len() + 6 * random.below(8), 9);
        let mut call = chains::any_call(random, &store);
        if random.one_in(2) {
            near::add(random, &mut store, &mut call);
        } else {
            damage(random, &mut store, &mut call);
        }
        if random.one_in(4) {
            damage(random, &mut store, &mut call);
        }
        tally.compare(&store, &call, None);
    }
}

/// Changes one thing of the stores or the arguments.
fn damage(random: &mut Random, store: &mut Store, call: &mut Call) {
    match random.below(16) {
        0 => number(random, &mut store.terms_used),
        1 => number(random, &mut store.nodes_used),
        2 => names(random, &mut store.names),
        3..=5 => {
            let used = TERM_WIDTH * store.terms_used;
            words(random, &mut store.terms, used)
        }
        6..=8 => {
            let used = 6 * store.nodes_used;
            words(random, &mut store.nodes, used)
        }
        _ => argument(random, call),
    }
}

fn argument(random: &mut Random, call: &mut Call) {
    match call {
        Call::FromRuns(runs) => list(random, runs),
        Call::Join(f, g) | Call::StartsWith(f, g) | Call::Equal(f, g) => either(random, f, g),
        Call::Take(f, n) | Call::Rest(f, n) => field_or(random, f, n),
        Call::Range(f, a, b) => {
            let n = if random.one_in(2) { a } else { b };
            field_or(random, f, n)
        }
        Call::Flatten(f, work) => {
            field(random, f);
            work.truncate(random.below(work.len() + 1));
        }
        Call::CompareRuns(a, b, c, d) => {
            let at = random.below(4);
            number(random, [a, b, c, d][at])
        }
        Call::Match(r) => match random.below(8) {
            0 => field(random, &mut r.field),
            1 => r.slots.truncate(random.below(r.slots.len() + 1)),
            2 | 3 => list(random, &mut r.bindings),
            _ => list(random, &mut r.pattern),
        },
    }
}

fn either(random: &mut Random, f: &mut Field, g: &mut Field) {
    let one = if random.one_in(2) { f } else { g };
    field(random, one)
}

fn field_or(random: &mut Random, f: &mut Field, n: &mut usize) {
    if random.one_in(2) { field(random, f) } else { number(random, n) }
}

fn field(random: &mut Random, f: &mut Field) {
    if random.one_in(2) { number(random, &mut f.node) } else { number(random, &mut f.len) }
}

/// Off by one, small, large, or as large as can be.
fn number(random: &mut Random, n: &mut usize) {
    *n = match random.below(6) {
        0 => n.wrapping_sub(1),
        1 | 2 => n.wrapping_add(1),
        3 => random.below(8),
        4 => random.pick(&[65535, 65536, 65537, u32::MAX as usize, 1 << 32, 1 << 62, 1 << 63]),
        _ => usize::MAX - random.below(3),
    };
}

fn word(random: &mut Random, w: &mut u32) {
    *w = match random.below(6) {
        0 => w.wrapping_sub(1),
        1 => w.wrapping_add(1),
        2 => *w ^ (1 << random.below(32)),
        3 => random.below(10) as u32,
        4 => random.pick(&[255, 256, 65535, 65536, 65537, 0xD800, 0xDFFF, 0x110000, u32::MAX, u32::MAX - 1]),
        _ => random.word(),
    };
}

/// A word among the used ones, seldom any other; or the slice one word or some words shorter.
fn words(random: &mut Random, list: &mut Vec<u32>, used: usize) {
    if list.is_empty() {
        return list.push(random.word());
    }
    if random.one_in(8) {
        let cut = 1 + random.below(list.len().min(13));
        return list.truncate(list.len() - cut);
    }
    let within = if random.one_in(8) { list.len() } else { used.clamp(1, list.len()) };
    let at = random.below(within);
    word(random, &mut list[at]);
}

fn list(random: &mut Random, list: &mut Vec<u32>) {
    let used = list.len();
    match random.below(8) {
        0 => list.push(random.word()),
        1 => list.extend_from_within(..used.min(5)),
        _ => words(random, list, used),
    }
}

fn names(random: &mut Random, names: &mut Vec<u8>) {
    if random.one_in(3) || names.is_empty() {
        return names.truncate(random.below(names.len() + 1));
    }
    let at = random.below(names.len());
    names[at] = random.pick(&[b'-', b'_', b'0', b'z', b'Z', b' ', b'@', b'[', b'`', b'{', b'/', b':', 0, 255]);
}
