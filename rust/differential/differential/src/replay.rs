//! Recorded cases for the program `cases`: calls with the original's answers, as lines of `docs/CASES.md`.
//!
//! Nodes stay from call to call until the next store. A listing's settled copy is dropped after it: each starts with the store's own terms.
use crate::generate;
use crate::oracle;
use crate::port::{Call, EMPTY, Field, Outcome, Request, Store};
use crate::random::Random;
use crate::rules;
use naldrev::TERM_WIDTH;

/// Bounds of what is written: terms of a store, terms lent for it, nodes lent, pattern records, words of slots.
const TERMS: usize = 14;
const LENT: usize = 32;
const NODES: usize = 64;
const RECORDS: usize = 24;
const SLOTS: usize = 128;

/// What stands at the top of the list, after the line that says how it was recorded.
const HEAD: &str = "# from_runs, join, rest, range, equal and starts_with on stores of up to 14 terms, and listings and first matches on the fields so made.
# What a listing copies to settle its field is dropped after it. The original was handed numbers without their leading zeros.";

/// The words for the kinds of each record.
const TERM: &[&str] = &["char", "ident", "number", "bracket", "unknown"];
const NODE: &[&str] = &["nil", "cons", "concat"];
const ITEM: &[&str] = &["char", "ident", "number", "open", "close", "s", "t", "e", "call", "block"];

/// Prints so many listings, with the calls that make their fields.
pub fn write(seed: u64, listings: usize) {
    let random = &mut Random::new(seed);
    println!(
        "# The Rust original's answers (matcher.rs and value.rs, compiled unchanged), recorded by tools/differential --write-replay {listings} {seed}:"
    );
    println!("{HEAD}\nset names \"{}\"", String::from_utf8_lossy(generate::NAMES));
    let mut left = listings;
    while left > 0 {
        let used = 1 + random.below(TERMS);
        let mut store = generate::store(random, used, LENT - used, NODES - 1);
        let terms = records(TERM, TERM_WIDTH, &store.terms[..TERM_WIDTH * used]);
        println!("set terms{terms} lend terms {} set nodes nil lend nodes {}", TERM_WIDTH * LENT, 6 * NODES);
        let mut fields = vec![EMPTY];
        for _ in 0..8 {
            build(random, &mut store, &mut fields);
            compare(random, &store, &fields);
        }
        for _ in 0..left.min(12) {
            left -= usize::from(list(random, &store, &fields));
        }
    }
}

/// Numbers, a space before each.
fn numbers(all: impl IntoIterator<Item = usize>) -> String {
    all.into_iter().map(|n| format!(" {n}")).collect()
}

/// Records of so many words, each by the word for its kind, without the zeros at its end; characters as texts.
fn records(kinds: &[&str], width: usize, words: &[u32]) -> String {
    let mut out = String::new();
    let mut text = false;
    for record in words.chunks(width) {
        let end = 1 + record.iter().skip(1).rposition(|w| *w != 0).map_or(0, |last| last + 1);
        let kind = kinds[record[0] as usize];
        match char::from_u32(record[1]) {
            Some(c @ ' '..='~') if kind == "char" && end == 2 && c != '\'' => {
                if text {
                    out.pop();
                } else {
                    out.push_str(" '");
                }
                out.extend([c, '\'']);
                text = true;
            }
            _ => {
                out.push_str(&format!(" {kind}{}", numbers(wide(&record[1..end]))));
                text = false;
            }
        }
    }
    out
}

fn wide(words: &[u32]) -> impl Iterator<Item = usize> {
    words.iter().map(|w| *w as usize)
}

/// A clause that has words, or nothing.
fn clause(verb: &str, words: String) -> String {
    if words.is_empty() { words } else { format!(" {verb}{words}") }
}

fn answer(store: &Store, call: &Call) -> Outcome {
    oracle::outcome(store, call, None).expect("the original follows 01")
}

/// A building call; the store and the fields grow. Fields of more than 14 terms are not made.
fn build(random: &mut Random, store: &mut Store, fields: &mut Vec<Field>) {
    let (f, g) = (generate::longer(random, fields, |f| f.len), random.pick(fields));
    let start = random.below(f.len + 1);
    let len = random.below(f.len - start + 1);
    let turn = if fields.iter().all(|f| f.len == 0) { 0 } else { random.below(6) };
    let (head, call) = match turn {
        0 | 1 => {
            let runs = generate::runs(random, store, 4, 4);
            (format!("from_runs{}", numbers(wide(&runs))), Call::FromRuns(runs))
        }
        2 | 3 => (format!("join {} {} {} {}", f.node, f.len, g.node, g.len), Call::Join(f, g)),
        4 => (format!("rest {} {} {start}", f.node, f.len), Call::Rest(f, start)),
        _ => (format!("range {} {} {start} {len}", f.node, f.len), Call::Range(f, start, len)),
    };
    let got = answer(store, &call);
    if got.answer != 0 || got.values[1] > TERMS {
        return;
    }
    let made = &got.store.nodes[6 * store.nodes_used..6 * got.store.nodes_used];
    println!("{head} gives field{}{}", numbers(got.values.clone()), clause("writes nodes", records(NODE, 6, made)));
    fields.push(Field { node: got.values[0], len: got.values[1] });
    *store = got.store;
}

/// Both comparisons of two fields.
fn compare(random: &mut Random, store: &Store, fields: &[Field]) {
    let (f, g) = (random.pick(fields), random.pick(fields));
    for (verb, call) in [("equal", Call::Equal(f, g)), ("starts_with", Call::StartsWith(f, g))] {
        let yes = ["no", "yes"][answer(store, &call).values[0]];
        println!("{verb} {} {} {} {} gives {yes}", f.node, f.len, g.node, g.len);
    }
}

/// A listing or first match, where it is within the bounds.
fn list(random: &mut Random, store: &Store, fields: &[Field]) -> bool {
    let field = generate::longer(random, fields, |field| field.len);
    let mut request = generate::request(random, store, field);
    let width = 2 * rules::entries(&store.names, &request.pattern, &request.bindings).len();
    request.first = random.one_in(4);
    request.slots = generate::slots(if random.one_in(4) { random.below(SLOTS) } else { SLOTS.min(width * 40) });
    if request.pattern.len() > 4 * RECORDS || oracle::candidates_bound(store, &request) > 10_000.0 {
        return false;
    }
    let got = answer(store, &Call::Match(request.clone()));
    let Request { first, field, pattern, bindings, slots } = request;
    let verb = if first { "first" } else { "listing" };
    print!("set pattern{} set start{} lend slots {}", records(ITEM, 4, &pattern), records(ITEM, 5, &bindings), slots.len());
    print!(" {verb} {} {} gives", field.node, field.len);
    let filled = match got.answer {
        0 | 15 => {
            let (count, entries) = (got.values[0], got.values[1]);
            print!(" {} {count} {entries}", if got.answer == 0 { "listed" } else { "more" });
            2 * count * entries
        }
        number => {
            print!(" refused {number}");
            0
        }
    };
    let copied = &got.store.terms[TERM_WIDTH * store.terms_used..TERM_WIDTH * got.store.terms_used];
    print!("{}{}", clause("writes terms", records(TERM, TERM_WIDTH, copied)), clause("writes slots", numbers(wide(&got.lent[..filled]))));
    println!("{}", if copied.is_empty() { String::new() } else { format!(" use terms {}", store.terms_used) });
    true
}
