//! At and around every limit that the Rust can do, and at the port's own.
use crate::generate::{self, HALVES};
use crate::port::{Call, EMPTY, Field, Request, Store};
use crate::random::Random;
use crate::rules;
use crate::tally::Tally;
use naldrev::TERM_WIDTH;

pub fn run(random: &mut Random, rounds: usize, tally: &mut Tally) {
    tally.bound = f64::INFINITY;
    for round in 0..rounds {
        names(random, tally);
        numbers(tally);
        levels(tally);
        nesting(tally);
        depth(tally);
        records(tally);
        runs(random, tally);
        long(random, tally);
        if round < 3 {
            full(random, tally);
            spines(tally, [1500, 6000, 24000][round]);
            doubled(tally);
        }
    }
}

// ---- stores ----

fn store(terms: Vec<u32>, room: usize, nodes: usize) -> Store {
    let used = terms.len() / TERM_WIDTH;
    let mut terms = terms;
    terms.resize(TERM_WIDTH * (used + room), 0);
    Store { names: b"xyz".to_vec(), terms, terms_used: used, nodes: vec![0; 6 * nodes], nodes_used: 1 }
}

/// Chars `a`, with a `b` at about one in `rare`.
fn chars(random: &mut Random, count: usize, rare: usize) -> Vec<u32> {
    (0..count).flat_map(|_| [0, if random.one_in(rare) { 98 } else { 97 }, 0, 0, 0]).collect()
}

/// Compares a building call and goes on with what it left.
fn build(tally: &mut Tally, store: &mut Store, call: Call) -> Field {
    let got = tally.compare(store, &call, None).expect("a call on fields");
    if got.answer != 0 {
        return EMPTY;
    }
    *store = got.store;
    Field { node: got.values[0], len: got.values[1] }
}

fn ask(tally: &mut Tally, store: &Store, field: Field, pattern: &[u32], bindings: &[u32], slots: usize) -> usize {
    let list = Request { first: false, field, pattern: pattern.to_vec(), bindings: bindings.to_vec(), slots: generate::slots(slots) };
    let first = Request { first: true, ..list.clone() };
    tally.compare(store, &Call::Match(first), None);
    let got = tally.compare(store, &Call::Match(list), None).expect("no bound");
    if got.answer == 0 { got.values[0] } else { 0 }
}

// ---- limits ----

/// 64 names and around, some of them the start's, one of these repeated or not; names of 255 bytes and around.
fn names(random: &mut Random, tally: &mut Tally) {
    for total in [1, 2, 62, 63, 64, 65, 66] {
        let started = random.pick(&[0, total / 2, total - 1, total]);
        let mut store = store(chars(random, 70, 3), 0, 4);
        store.names = (0..80).flat_map(|i| format!("{i:03}").into_bytes()).collect();
        let spot = |i: usize| [3 * i as u32, 3];
        let starts: Vec<u32> = (0..started).flat_map(|i| [7, spot(i)[0], spot(i)[1], i as u32, (i % 3) as u32]).collect();
        let pattern: Vec<u32> = (started..total).flat_map(|i| [5 + (i % 2) as u32, spot(i)[0], spot(i)[1], 0]).collect();
        let field = build(tally, &mut store, Call::FromRuns(vec![2, (total - started) as u32]));
        ask(tally, &store, field, &pattern, &starts, 2 * total + random.below(3));
        ask(tally, &store, field, &pattern, &starts, (2 * total).saturating_sub(1));
        let repeated = [&starts[..], &starts[..starts.len().min(5)]].concat();
        ask(tally, &store, field, &pattern, &repeated, 2 * total);
    }
    for len in [1, 254, 255, 256] {
        let mut store = store([1, 0, len, 0, 0].to_vec(), 0, 4);
        store.names = vec![b'a'; 300];
        let field = build(tally, &mut store, Call::FromRuns(vec![0, 1]));
        ask(tally, &store, field, &[1, 10, len, 0], &[], 0);
        ask(tally, &store, field, &[5, 10, len, 0], &[], 4);
        ask(tally, &store, field, &[5, 0, 1, 0], &[6, 10, len, 0, 1], 4);
    }
}

/// Numbers of up to 255 digits that are zeros, or zeros before a 7 or before 70: each with each, as terms and as literals; and one of 256.
fn numbers(tally: &mut Tally) {
    let names = [&b"0".repeat(300)[..], b"70"].concat();
    let spots: Vec<[u32; 2]> =
        [1, 2, 3, 254, 255].into_iter().flat_map(|len| [[0, len], [301 - len, len], [302 - len.max(2), len.max(2)]]).collect();
    let mut store = store(spots.iter().flat_map(|[offset, len]| [2, *offset, *len, 0, 0]).collect(), 0, 2);
    store.names = names;
    let all = build(tally, &mut store, Call::FromRuns(vec![0, spots.len() as u32]));
    for (i, [offset, len]) in spots.iter().enumerate() {
        ask(tally, &store, all, &[7, 300, 1, 0, 2, *offset, *len, 0, 7, 301, 1, 0], &[], 400);
        for j in 0..spots.len() {
            tally.compare(&store, &Call::CompareRuns(i, 1, j, 1), None);
        }
    }
    ask(tally, &store, all, &[5, 300, 1, 0, 7, 0, 1, 0, 5, 300, 1, 0, 7, 0, 2, 0], &[], 400);
    store.terms[2] = 256;
    tally.compare(&store, &Call::CompareRuns(0, 1, 1, 1), None);
}

/// Unknowns of levels whose halves are at their ends or in the middle, each level twice: each with each. Then a first term of each other kind with
/// these upper halves, of which it may have 0 alone.
fn levels(tally: &mut Tally) {
    let pairs = HALVES.map(|upper| HALVES.map(|lower| [4, 0, lower, 1, upper]));
    let twice = pairs.as_flattened().repeat(2);
    let mut store = store(twice.concat(), 0, 2);
    store.names.push(b'7');
    let all = build(tally, &mut store, Call::FromRuns(vec![0, twice.len() as u32]));
    for i in 0..twice.len() {
        ask(tally, &store, all, &[7, 0, 1, 0, 5, 1, 1, 0, 7, 2, 1, 0], &[5, 1, 1, i as u32, 1], 400);
        for j in 0..twice.len() {
            tally.compare(&store, &Call::CompareRuns(i, 1, j, 1), None);
        }
    }
    ask(tally, &store, all, &[7, 0, 1, 0, 5, 1, 1, 0, 7, 2, 1, 0, 5, 1, 1, 0, 7, 0, 2, 0], &[], 400);
    for d in HALVES {
        for [kind, a, b, c] in [[0, 97, 0, 0], [1, 0, 1, 0], [2, 3, 1, 0], [3, 0, 0, 1]] {
            store.terms[..TERM_WIDTH].copy_from_slice(&[kind, a, b, c, d]);
            tally.compare(&store, &Call::CompareRuns(0, 1, 1, 1), None);
        }
    }
}

/// A chain of brackets, the term with number i of depth i.
fn chain(innermost: u32, from: usize, deep: usize) -> Vec<u32> {
    let mut words = vec![0, innermost, 0, 0, 0];
    words.extend((1..=deep).flat_map(|i| [3, (from + i - 1) as u32, 1, i as u32, 0]));
    words
}

/// Pattern brackets 32 deep and around.
fn nesting(tally: &mut Tally) {
    for deep in [1, 2, 31, 32, 33, 34] {
        let mut store = store(chain(97, 0, 40), 0, 4);
        let mut pattern: Vec<u32> = (0..deep).flat_map(|i| [3, (2 * deep - i) as u32, 0, 0]).collect();
        pattern.extend([7, 0, 1, 0]);
        pattern.extend((0..deep).flat_map(|i| [4, (deep - 1 - i) as u32, 0, 0]));
        for term in [deep - 1, deep, deep + 1] {
            let field = build(tally, &mut store, Call::FromRuns(vec![term as u32, 1]));
            ask(tally, &store, field, &pattern, &[], 4);
        }
    }
}

/// Terms of depth 255 and around, compared with a like chain and with one that differs innermost.
fn depth(tally: &mut Tally) {
    for deep in [253, 254, 255, 256] {
        for other in [97, 98] {
            let mut terms = chain(97, 0, deep);
            terms.extend(chain(other, deep + 1, deep));
            let mut store = store(terms, 8, 12);
            let (one, two) = (deep as u32, 2 * deep as u32 + 1);
            let both = build(tally, &mut store, Call::FromRuns(vec![one, 1, two, 1]));
            ask(tally, &store, both, &[6, 0, 1, 0, 6, 0, 1, 0], &[], 4);
            ask(tally, &store, both, &[7, 0, 1, 0, 7, 0, 1, 0], &[], 4);
            let left = build(tally, &mut store, Call::FromRuns(vec![one, 1]));
            let right = build(tally, &mut store, Call::FromRuns(vec![two, 1]));
            tally.compare(&store, &Call::Equal(left, right), None);
            tally.compare(&store, &Call::StartsWith(both, left), None);
            tally.compare(&store, &Call::CompareRuns(one as usize, 1, two as usize, 1), None);
        }
    }
}

/// Patterns of 256 records and around, rigid runs as long.
fn records(tally: &mut Tally) {
    for count in [254, 255, 256, 257] {
        let mut store = store([0, 97, 0, 0, 0].repeat(300), 0, 8);
        let exact = build(tally, &mut store, Call::FromRuns(vec![0, count as u32]));
        let longer = build(tally, &mut store, Call::FromRuns(vec![0, 300]));
        for record in [[0, 97, 0, 0], [5, 0, 1, 0], [6, 0, 1, 0], [7, 0, 1, 0]] {
            let pattern = record.repeat(count);
            ask(tally, &store, exact, &pattern, &[], 4);
            ask(tally, &store, longer, &pattern, &[], 4);
        }
        let mut pattern = vec![7, 0, 1, 0];
        pattern.extend([0, 97, 0, 0].repeat(count - 2));
        ask(tally, &store, longer, &pattern, &[], 400);
        pattern.extend([7, 1, 1, 0]);
        ask(tally, &store, longer, &pattern, &[], 400);
    }
}

/// 64 runs and around, empty ones counted, fused and not; nodes enough and too few.
fn runs(random: &mut Random, tally: &mut Tally) {
    for count in [63, 64, 65] {
        for nodes in [count / 2, count, count + 1, 70] {
            let mut store = store(chars(random, 200, 3), 0, nodes);
            let list: Vec<u32> =
                (0..count).flat_map(|i| [if random.one_in(2) { 2 * i as u32 } else { 5 }, random.below(3) as u32]).collect();
            build(tally, &mut store, Call::FromRuns(list));
            let apart: Vec<u32> = (0..count).rev().flat_map(|i| [i as u32, 1]).collect();
            build(tally, &mut store, Call::FromRuns(apart));
        }
    }
}

/// A scattered field of some thousand terms.
fn long_field(random: &mut Random, tally: &mut Tally, store: &mut Store) -> Field {
    let mut field = build(tally, store, Call::FromRuns(vec![0, 1000]));
    for _ in 0..8 {
        let list = (0..30).flat_map(|_| [random.below(900) as u32, random.below(20) as u32]).collect();
        let other = build(tally, store, Call::FromRuns(list));
        let pair = if random.one_in(2) { Call::Join(field, other) } else { Call::Join(other, field) };
        field = build(tally, store, pair);
        let left = build(tally, store, Call::Rest(field, random.below(300)));
        field = build(tally, store, Call::Join(field, left));
        let len = field.len.min(3000);
        field = build(tally, store, Call::Range(field, field.len - len, len));
    }
    field
}

/// Long fields, scattered and in one run, with slots just enough and one word short.
fn long(random: &mut Random, tally: &mut Tally) {
    let mut store = store(chars(random, 1000, 90), 4000, 600);
    let scattered = long_field(random, tally, &mut store);
    let single = build(tally, &mut store, Call::FromRuns(vec![100, 900]));
    let (b, [x, y, z]) = ([0, 98, 0, 0], [0, 1, 2].map(|name| [7, name, 1, 0]));
    let patterns: [&[[u32; 4]]; 5] = [&[x, b, y], &[x, b, y, b, z], &[x, y, b], &[x, x], &[x, b, x]];
    for field in [scattered, single] {
        for pattern in patterns.map(|records| records.concat()) {
            let width = 2 * rules::entries(&store.names, &pattern, &[]).len();
            let found = ask(tally, &store, field, &pattern, &[], width * 4000);
            if found > 0 {
                ask(tally, &store, field, &pattern, &[], width * found);
                ask(tally, &store, field, &pattern, &[], width * found - 1);
            }
        }
        ask(tally, &store, field, &[x, y].concat(), &[7, 0, 1, 100, 7], 8);
        tight(tally, &store, field);
        for room in [field.len, field.len - 1] {
            tally.compare(&store, &Call::Flatten(field, generate::slots(TERM_WIDTH * room)), None);
        }
    }
}

/// Room for the settled copy, and one term less.
fn tight(tally: &mut Tally, store: &Store, field: Field) {
    for room in [field.len - 1, field.len, field.len + 1] {
        let mut tight = store.clone();
        tight.terms.resize(TERM_WIDTH * (store.terms_used + room), 1);
        ask(tally, &tight, field, &[7, 0, 1, 0], &[], 2);
    }
}

/// 65,536 terms, in a field, in the store, after settling; slices longer than the limit; names of 65,536 bytes.
fn full(random: &mut Random, tally: &mut Tally) {
    let mut store = store(chars(random, 65536, 9000), 3, 20);
    let all = build(tally, &mut store, Call::FromRuns(vec![0, 65536]));
    let one = build(tally, &mut store, Call::FromRuns(vec![7, 1]));
    let less = build(tally, &mut store, Call::Rest(all, 1));
    for (f, g) in [(all, one), (one, all), (less, one), (one, less)] {
        let joined = build(tally, &mut store, Call::Join(f, g));
        ask(tally, &store, joined, &[7, 0, 1, 0], &[], 2);
        tally.compare(&store, &Call::Equal(joined, all), None);
    }
    for list in [vec![0, 65535, 3, 1], vec![0, 65535, 3, 2], vec![0, 65536, 65536, 0], vec![0, 65536, 65537, 0]] {
        build(tally, &mut store, Call::FromRuns(list));
    }
    ask(tally, &store, all, &[7, 0, 1, 0, 0, 98, 0, 0, 7, 1, 1, 0], &[], 4 * 100);
    for used in [65535, 65536, 65537] {
        tally.compare(&Store { terms_used: used, ..store.clone() }, &Call::Rest(all, 65536), None);
    }
    for names in [65535, 65536, 65537] {
        tally.compare(&Store { names: vec![b'a'; names], ..store.clone() }, &Call::Rest(all, 9), None);
    }
    half_full(random, tally);
}

/// A settled copy that ends at 65,536 terms, and one past it, in a longer slice.
fn half_full(random: &mut Random, tally: &mut Tally) {
    let mut store = store(chars(random, 40000, 9000), 40000, 20);
    for len in [25535, 25536, 25537] {
        let field = build(tally, &mut store, Call::FromRuns(vec![0, 1000, 2000, len - 1000]));
        ask(tally, &store, field, &[7, 0, 1, 0, 0, 98, 0, 0, 7, 1, 1, 0], &[], 400);
    }
}

/// Nodes that each show the one before twice: their reach ends at 65,536; a reach beyond it is no reach.
fn doubled(tally: &mut Tally) {
    let mut store = store([0, 97, 0, 0, 0].repeat(3), 0, 1);
    store.nodes.extend([1, 0, 3, 0, 1, 3]);
    for i in 2..20u32 {
        let below = store.nodes[6 * (i as usize - 1) + 5];
        store.nodes.extend([2, i - 1, below, i - 1, i, (2 * below).min(65536)]);
    }
    store.nodes_used = 20;
    let top = Field { node: 19, len: 65536 };
    store.nodes.resize(6 * 60, 0);
    for call in [
        Call::Rest(top, 1),
        Call::Rest(top, 65536),
        Call::Range(top, 40000, 9),
        Call::Join(Field { len: 1, ..top }, Field { len: 65535, ..top }),
    ] {
        tally.compare(&store, &call, None);
    }
    for (word, value) in [(2, 65536), (2, 65537), (5, 65535), (5, 65537), (5, 131072)] {
        let mut changed = store.clone();
        changed.nodes[6 * 19 + word] = value;
        tally.compare(&changed, &Call::Take(top, 5), None);
    }
}

/// Ropes that lean left and right, by stores that no call makes; and a store of 65,536 nodes.
fn spines(tally: &mut Tally, deep: usize) {
    for leans_left in [true, false] {
        let mut store = store([0, 97, 0, 0, 0].repeat(4), 0, 1);
        store.nodes.extend([1, 0, 2, 0, 1, 2]);
        for i in 2..deep as u32 {
            let below = store.nodes[6 * (i as usize - 1) + 5];
            let record = if leans_left { [2, i - 1, below, 1, i, below + 2] } else { [2, 1, 2, i - 1, i, below + 2] };
            store.nodes.extend(record);
        }
        store.nodes_used = deep;
        store.nodes.resize(6 * 3 * deep, 3);
        let top = Field { node: deep - 1, len: store.nodes[6 * deep - 1] as usize };
        let leaf = Field { node: 1, len: 1 };
        for call in [
            Call::Join(top, leaf),
            Call::Join(leaf, top),
            Call::Join(top, top),
            Call::Rest(top, 1),
            Call::Rest(top, top.len / 2 + 1),
            Call::Range(top, 3, top.len - 4),
            Call::Rest(top, top.len - 1),
        ] {
            tally.compare(&store, &call, None);
        }
        tally.compare(&store, &Call::Equal(top, top), None);
        tally.compare(&store, &Call::Flatten(top, generate::slots(TERM_WIDTH * top.len)), None);
    }
    let mut store = store([0, 97, 0, 0, 0].to_vec(), 0, 1);
    store.nodes.extend((1..65536).flat_map(|i| [1, 0, 1, i - 1, 1, i]));
    store.nodes.resize(6 * 65600, 5);
    for used in [65535, 65536, 65537] {
        let lent = Store { nodes_used: used, ..store.clone() };
        let (long, short) = (Field { node: 65534, len: 65534 }, Field { node: 1, len: 1 });
        for call in
            [Call::Join(long, short), Call::FromRuns(vec![0, 1]), Call::Rest(long, 65534), Call::Flatten(long, vec![0; TERM_WIDTH * 65534])]
        {
            tally.compare(&lent, &call, None);
        }
    }
}
