//! Random stores, fields, patterns and bindings that keep document 01's rules.
use crate::plain::values::values;
use crate::port::{Call, EMPTY, Field, Request, Store};
use crate::random::Random;
use crate::tally::Tally;
use naldrev::TERM_WIDTH;
use original::value::{Slice, ViewField};

/// The first of ten letters that only patterns made from terms use.
const LETTERS: u32 = 28;

/// A name in a text: offset and length.
type Spot = (u32, u32);

pub const NAMES: &[u8] = b"xX7007aAbBcC12-_a-ba_bDayDAYpqrstuvwyz";
const IDENTIFIERS: [Spot; 6] = [(0, 1), (1, 1), (16, 3), (19, 3), (22, 3), (25, 3)];
/// 7, 007, 07, 0, 00 and 70.
const NUMBERS: [Spot; 6] = [(2, 1), (3, 3), (4, 2), (3, 1), (3, 2), (2, 2)];
/// Identifiers and numbers, each with an equal one that is spelled otherwise.
const RESPELLED: [(Spot, Spot); 9] = [
    ((0, 1), (1, 1)),
    ((1, 1), (0, 1)),
    ((22, 3), (25, 3)),
    ((25, 3), (22, 3)),
    ((2, 1), (3, 3)),
    ((3, 3), (4, 2)),
    ((4, 2), (2, 1)),
    ((3, 1), (3, 2)),
    ((3, 2), (3, 1)),
];
/// Names that patterns and bindings share, some in both cases of letters.
const VARIABLES: [Spot; 8] = [(6, 1), (7, 1), (8, 1), (9, 1), (12, 1), (14, 1), (15, 1), (22, 3)];

/// A field made by the same calls on both sides.
#[derive(Clone)]
pub struct Made {
    pub field: Field,
    pub plain: ViewField,
}

// ---- terms ----

fn symbol(random: &mut Random) -> [u32; 4] {
    match random.below(8) {
        0 | 1 => {
            let (offset, len) = random.pick(&IDENTIFIERS);
            [1, offset, len, 0]
        }
        2 => {
            let (offset, len) = random.pick(&NUMBERS);
            [2, offset, len, 0]
        }
        3 => [0, random.pick(&[0, 0xD7FF, 0xE000, 0x10FFFF, 98]), 0, 0],
        _ => [0, 97 + random.below(2) as u32, 0, 0],
    }
}

/// A term that is no unknown, from the words that it shares with a record of a pattern.
fn as_term([kind, a, b, c]: [u32; 4]) -> [u32; TERM_WIDTH] {
    [kind, a, b, c, 0]
}

/// Terms with few different values, brackets over earlier ones among them. One store in two has no symbols but `a` and `b`, one in eight has
/// mostly unknowns.
pub fn terms(random: &mut Random, count: usize) -> Vec<u32> {
    let (mut words, sort) = (Vec::new(), random.below(8));
    for i in 0..count {
        let record = match (random.below(12), sort) {
            (0..=2, _) => bracket(random, &words, i),
            (_, 0..=3) => [0, 97 + random.below(2) as u32, 0, 0, 0],
            (3..=8, 4) | (9 | 10, _) if i > 0 => {
                let of = random.below(i);
                twin(random, &words, of)
            }
            (_, 4) | (11, _) => unknown(random),
            _ => as_term(symbol(random)),
        };
        words.extend(record);
    }
    words
}

/// Halves of a level that are frequent, so that levels from 0 to 2^64 - 1 come up, and often two of which one half is equal.
pub const HALVES: [u32; 4] = [0, 1, 1 << 31, u32::MAX];

/// A half of a level: one of these, or any.
pub fn half(random: &mut Random) -> u32 {
    if random.one_in(8) { random.word() } else { random.pick(&HALVES) }
}

fn unknown(random: &mut Random) -> [u32; TERM_WIDTH] {
    [4, random.pick(&[0, 0, 0, 1, 2]), half(random), random.pick(&[0, 0, 0, 1, u32::MAX]), half(random)]
}

/// An earlier term again: an identifier in other letters and a number with other zeros where the names have it so, an unknown one time in two with
/// one half of its level drawn again or the two exchanged.
fn twin(random: &mut Random, words: &[u32], of: usize) -> [u32; TERM_WIDTH] {
    let [kind, a, b, c, d] = [0, 1, 2, 3, 4].map(|i| words[TERM_WIDTH * of + i]);
    if kind == 4 {
        return match random.below(6) {
            0 => [kind, a, half(random), c, d],
            1 => [kind, a, b, c, half(random)],
            2 => [kind, a, d, c, b],
            _ => [kind, a, b, c, d],
        };
    }
    match RESPELLED.iter().find(|(one, _)| (1..=2).contains(&kind) && *one == (a, b)) {
        Some((_, (offset, len))) => [kind, *offset, *len, c, d],
        None => [kind, a, b, c, d],
    }
}

/// A bracket over a run of earlier terms, at most four deep.
fn bracket(random: &mut Random, words: &[u32], before: usize) -> [u32; TERM_WIDTH] {
    let len = random.below(5).min(before);
    let start = random.below(before - len + 1);
    let inside = words[TERM_WIDTH * start..TERM_WIDTH * (start + len)].chunks(TERM_WIDTH);
    let depth = 1 + inside.filter(|t| t[0] == 3).map(|t| t[3]).max().unwrap_or(0);
    as_term(if depth > 4 { [0, 97, 0, 0] } else { [3, start as u32, len as u32, depth] })
}

/// Words after the used records: any.
fn spare(random: &mut Random, words: &mut Vec<u32>, records: usize, width: usize) {
    words.extend((0..records * width).map(|_| random.word() >> random.below(32)));
}

/// A store of so many terms and node 0 alone.
pub fn store(random: &mut Random, count: usize, room: usize, nodes: usize) -> Store {
    let mut words = terms(random, count);
    spare(random, &mut words, room, TERM_WIDTH);
    let mut node_words = vec![0; 6];
    spare(random, &mut node_words, nodes, 6);
    Store { names: NAMES.to_vec(), terms: words, terms_used: count, nodes: node_words, nodes_used: 1 }
}

pub fn arena(store: &Store) -> Slice {
    Slice::owned(values(&store.names, &store.terms[..TERM_WIDTH * store.terms_used]))
}

// ---- fields ----

pub fn runs(random: &mut Random, store: &Store, most: usize, longest: usize) -> Vec<u32> {
    let mut words = Vec::new();
    let mut last = 0;
    for _ in 0..random.below(most + 1) {
        let len = random.below(longest + 1).min(store.terms_used);
        let next = last + len <= store.terms_used && random.one_in(3);
        let start = if next { last } else { random.below(store.terms_used - len + 1) };
        last = start + len;
        words.extend([start as u32, len as u32]);
    }
    words
}

/// A random call that builds, over fields made before, and the same in the Rust.
pub fn build(random: &mut Random, store: &Store, arena: &Slice, made: &[Made]) -> (Call, ViewField) {
    let turn = if made.is_empty() { 0 } else { random.below(8) };
    if turn < 3 {
        let words = runs(random, store, 4, 4);
        let slices = words.chunks(2).map(|r| arena.sub(r[0] as usize, r[1] as usize)).collect();
        return (Call::FromRuns(words), ViewField::from_runs(slices));
    }
    let (f, g) = (random.pick(made), random.pick(made));
    let start = random.below(f.field.len + 1);
    let len = random.below(f.field.len - start + 1);
    match turn {
        3..=5 => (Call::Join(f.field, g.field), f.plain.clone().concat(g.plain)),
        6 => (Call::Rest(f.field, start), f.plain.rest(start)),
        _ => (Call::Range(f.field, start, len), f.plain.range(start, len)),
    }
}

/// Fields made by random calls, each compared; the store grows.
pub fn fields(random: &mut Random, tally: &mut Tally, store: &mut Store, arena: &Slice, calls: usize, longest: usize) -> Vec<Made> {
    let mut made: Vec<Made> = Vec::new();
    for _ in 0..calls {
        let (call, plain) = build(random, store, arena, &made);
        if plain.len() > longest {
            continue;
        }
        let got = tally.compare(store, &call, None).expect("a call on fields");
        if got.answer == 0 {
            *store = got.store;
            made.push(Made { field: Field { node: got.values[0], len: got.values[1] }, plain });
        }
    }
    if made.is_empty() {
        made.push(Made { field: EMPTY, plain: ViewField::empty() });
    }
    made
}

/// One of two fields, the longer.
pub fn longer<T: Clone>(random: &mut Random, fields: &[T], len: impl Fn(&T) -> usize) -> T {
    let (one, other) = (random.pick(fields), random.pick(fields));
    if len(&one) < len(&other) { other } else { one }
}

/// Valid nodes of any shape, also such as no call makes.
pub fn nodes(random: &mut Random, store: &mut Store, count: usize) {
    store.nodes.truncate(6);
    for i in 1..=count {
        let old = |n: usize| &store.nodes[6 * n..6 * n + 6];
        let (left, right) = (random.below(i), random.below(i));
        let record = if old(left)[0] != 0 && old(right)[0] != 0 && !random.one_in(3) {
            let left_len = 1 + random.below(old(left)[5].min(40) as usize) as u32;
            let height = 1 + old(left)[4].max(old(right)[4]);
            [2, left as u32, left_len, right as u32, height, (left_len + old(right)[5]).min(65536)]
        } else {
            let tail = if old(right)[0] == 2 { 0 } else { right };
            let len = 1 + random.below(store.terms_used.min(4));
            let start = random.below(store.terms_used - len + 1);
            [1, start as u32, len as u32, tail as u32, 1, (len as u32 + old(tail)[5]).min(65536)]
        };
        store.nodes.extend(record);
    }
    store.nodes_used = count + 1;
}

/// Any field of the store, of at most so many terms.
pub fn any_field(random: &mut Random, store: &Store, longest: usize) -> Field {
    let node = random.below(store.nodes_used);
    let reach = (store.nodes[6 * node + 5] as usize).min(longest);
    let len = if random.one_in(3) { reach } else { random.below(reach + 1) };
    Field { node, len }
}

// ---- patterns and bindings ----

fn variable(random: &mut Random, kind: u32) -> [u32; 4] {
    let (offset, len) = random.pick(&VARIABLES);
    [kind, offset, len, 0]
}

/// Appends an Open, what `inside` appends, and the Close.
fn bracketed(words: &mut Vec<u32>, inside: impl FnOnce(&mut Vec<u32>)) {
    let open = words.len() / 4;
    words.extend([3, 0, 0, 0]);
    inside(words);
    words[4 * open + 1] = (words.len() / 4) as u32;
    words.extend([4, open as u32, 0, 0]);
}

/// A pattern of up to so many records at each level.
pub fn pattern(random: &mut Random, words: &mut Vec<u32>, most: usize, depth: usize, calls: bool) {
    for _ in 0..random.below(most + 1) {
        match random.below(20) {
            0..=4 => words.extend(symbol(random)),
            5..=7 if depth < 3 => bracketed(words, |words| pattern(random, words, 3, depth + 1, calls)),
            19 if calls => words.extend([8 + random.below(2) as u32, 0, 0, 0]),
            _ => {
                let kind = random.pick(&[5, 6, 7, 7, 7]);
                words.extend(variable(random, kind));
            }
        }
    }
}

/// Mostly a name that the pattern does not have yet, so that most such patterns match.
fn fresh(random: &mut Random, words: &[u32], kind: u32) -> [u32; 4] {
    if random.one_in(4) {
        return variable(random, kind);
    }
    [kind, LETTERS + (words.len() / 4 % 10) as u32, 1, 0]
}

/// A pattern made from terms by putting variables in the place of some; an odd one has Calls and records that need not fit.
pub fn pattern_of(random: &mut Random, store: &Store, shown: &[usize], words: &mut Vec<u32>, budget: usize, odd: bool) {
    let mut at = 0;
    loop {
        if random.one_in(3) && words.len() < 4 * budget {
            words.extend(fresh(random, words, 7));
            at += random.below(4).min(shown.len() - at);
        }
        if odd && random.one_in(6) {
            words.extend([8 + random.below(2) as u32, 0, 0, 0]);
        }
        if at == shown.len() {
            return;
        }
        if words.len() >= 4 * budget {
            return words.extend(fresh(random, words, 7));
        }
        let term = &store.terms[TERM_WIDTH * shown[at]..][..TERM_WIDTH];
        at += 1;
        match (term[0], random.below(12)) {
            (_, 11) if odd => bracketed(words, |_| {}),
            (_, 10) if odd => words.extend(symbol(random)),
            // Names that come again, so that unknowns are compared.
            (4, 0..=7) => words.extend(variable(random, 6)),
            (0..=2, 0..=4) => words.extend_from_slice(&term[..4]),
            (0..=2, 5..=7) => words.extend(fresh(random, words, 5)),
            (3, 0..=7) => {
                let inside: Vec<usize> = (term[1] as usize..(term[1] + term[2]) as usize).collect();
                bracketed(words, |words| pattern_of(random, store, &inside, words, budget, odd));
            }
            _ => words.extend(fresh(random, words, 6)),
        }
    }
}

/// Starting bindings of different names, with runs of any length and kind.
pub fn bindings(random: &mut Random, store: &Store, most: usize) -> Vec<u32> {
    let mut words: Vec<u32> = Vec::new();
    let mut seen = Vec::new();
    for _ in 0..random.below(most + 1) {
        let kind = random.pick(&[5, 6, 7]);
        let name = variable(random, kind);
        let key = crate::rules::name(&store.names, &name);
        if seen.contains(&key) {
            continue;
        }
        seen.push(key);
        let len = random.pick(&[0, 1, 1, 2, 3]).min(store.terms_used);
        let start = random.below(store.terms_used - len + 1);
        words.extend([name[0], name[1], name[2], start as u32, len as u32]);
    }
    words
}

/// The term numbers that a field of the Rust over a store's arena shows. Values say nothing of numbers, so they are read from the words.
pub fn shown(store: &Store, f: Field) -> Vec<usize> {
    let mut found = Vec::new();
    let mut open = vec![(f.node, f.len)];
    while let Some((node, left)) = open.pop() {
        let r: Vec<usize> = store.nodes[6 * node..6 * node + 6].iter().map(|w| *w as usize).collect();
        match r[0] {
            1 if left > 0 => {
                let len = r[2].min(left);
                found.extend(r[1]..r[1] + len);
                open.push((r[3], left - len));
            }
            2 if left > 0 => {
                let first = r[2].min(left);
                open.extend([(r[3], left - first), (r[1], first)]);
            }
            _ => {}
        }
    }
    found
}

/// A request over a field, with no slots yet.
pub fn request(random: &mut Random, store: &Store, field: Field) -> Request {
    let (mut pattern_words, odd) = (Vec::new(), random.one_in(4));
    if random.one_in(3) {
        pattern(random, &mut pattern_words, 5, 0, odd);
    } else {
        pattern_of(random, store, &shown(store, field), &mut pattern_words, 10, odd);
    }
    let bindings = if random.one_in(3) { bindings(random, store, 3) } else { Vec::new() };
    Request { first: false, field, pattern: pattern_words, bindings, slots: Vec::new() }
}

/// Slots as they are lent: filled with a word that no candidate has.
pub fn slots(words: usize) -> Vec<u32> {
    vec![0x5105_5105; words]
}
