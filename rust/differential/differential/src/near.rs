//! Records that keep all rules but one, or just keep them: what random damage seldom makes.
use crate::generate::{NAMES, half};
use crate::port::{Call, Store};
use crate::random::Random;
use naldrev::TERM_WIDTH;

/// Adds a term or a node to the store, or records to the call's pattern or bindings.
pub fn add(random: &mut Random, store: &mut Store, call: &mut Call) {
    match (random.below(4), call) {
        (0, Call::Match(request)) => {
            let records = brackets(random);
            request.pattern = if random.one_in(2) { records } else { [&request.pattern[..], &symbol(random)].concat() };
        }
        (1, Call::Match(request)) => {
            let [offset, len] = spot(random);
            let run = [random.below(store.terms_used + 2) as u32, random.below(2) as u32];
            request.bindings.extend([random.pick(&[4, 5, 6, 7, 8]), offset, len, run[0], run[1]]);
        }
        (2, _) => term(random, store),
        _ => node(random, store),
    }
}

fn put(words: &mut Vec<u32>, used: &mut usize, record: &[u32]) {
    words.truncate(record.len() * *used);
    words.extend(record);
    *used += 1;
}

/// A text of the names, or one that starts or ends outside them.
fn spot(random: &mut Random) -> [u32; 2] {
    [random.below(NAMES.len() + 1) as u32, random.below(4) as u32]
}

fn symbol(random: &mut Random) -> [u32; 4] {
    let [offset, len] = spot(random);
    let spare = u32::from(random.one_in(8));
    match random.below(5) {
        0 => [0, random.pick(&[0xD7FF, 0xD800, 0xDFFF, 0xE000, 0x10FFFF, 0x110000]), spare, 0],
        1 => [1, offset, len, spare],
        2 => [2, offset, len, spare],
        3 => [random.pick(&[8, 9, 10]), spare, 0, 0],
        _ => [random.pick(&[5, 6, 7]), offset, len, spare],
    }
}

fn term(random: &mut Random, store: &mut Store) {
    let i = store.terms_used;
    let len = random.below(4).min(i);
    let start = if random.one_in(2) { i - len + random.below(2) } else { random.below(i - len + 1) };
    let inside = (start..start + len).filter(|n| *n < i && store.terms[TERM_WIDTH * n] == 3);
    let depth = 1 + inside.map(|n| store.terms[TERM_WIDTH * n + 3]).max().unwrap_or(0);
    let [kind, a, b, c] = match random.below(4) {
        0 => symbol(random),
        1 => [4, random.below(4) as u32, random.word(), random.word()],
        2 => [3, start as u32, len as u32, depth],
        _ => [3, start as u32, len as u32, depth + 1 - 2 * random.below(2) as u32],
    };
    let d = if kind == 4 || random.one_in(8) { half(random) } else { 0 };
    put(&mut store.terms, &mut store.terms_used, &[kind, a, b, c, d]);
}

fn node(random: &mut Random, store: &mut Store) {
    let (i, used) = (store.nodes_used, store.terms_used);
    if i == 0 {
        return;
    }
    let [height, reach] = [4, 5].map(|word| move |nodes: &[u32], n: usize| nodes[6 * n + word]);
    let (left, right) = (random.below(i), random.below(i));
    let (tall, more) = (1 + height(&store.nodes, left).max(height(&store.nodes, right)), reach(&store.nodes, right));
    let len = random.below(3).min(used) as u32;
    let start = (used - len as usize + random.below(2)) as u32;
    let taken = random.pick(&[0, 1, reach(&store.nodes, left), reach(&store.nodes, left) + 1]);
    let (l, r, own) = (left as u32, right as u32, i as u32);
    let mut record = match random.below(6) {
        0 => [1, 0, len, r, 1, len + more],
        1 => [1, start, len, r, 1, len + more],
        2 => [1, 0, len, own, 1, 65536],
        3 => [0; 6],
        4 => [2, l, taken, random.pick(&[r, own]), tall, taken + more],
        _ => [2, l, taken, r, tall, taken + more],
    };
    record[5] = record[5].min(65536);
    if random.one_in(6) {
        let word = 4 + random.below(2);
        record[word] = record[word] + 1 - 2 * (random.below(2) as u32).min(record[word]);
    }
    put(&mut store.nodes, &mut store.nodes_used, &record);
}

/// Opens and Closes with partners of any number: nested, crossing, or open at the end.
fn brackets(random: &mut Random) -> Vec<u32> {
    let count = 1 + random.below(6);
    (0..count).flat_map(|_| [3 + random.below(2) as u32, random.below(count) as u32, u32::from(random.one_in(20)), 0]).collect()
}
