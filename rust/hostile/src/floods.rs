//! Terms and names that are all in one bucket of the library's tables: for whoever knows its digests.
use crate::names::LONG;
use crate::request::{Answer, Case, E, TOO_MANY_NAMES, binding, listing};
use crate::store::{Field, Run, Store, TermWords, identifier_words, unknown_words};
use crate::windows;
use std::collections::HashSet;

/// A digest is a polynomial modulo this prime at this base, or at a power of it where the one before did not do (crates/numbers/src/digests.rt).
const PRIME: u64 = 2_147_483_647;
const BASE: u64 = 1_103_515_245;

const BUCKETS: u64 = 8192;

/// The unknown number i of those whose digest is 0 at the first two bases: 2, level, index and the level's upper half are the numbers of a polynomial
/// that has both as its roots.
fn unknown(i: usize) -> TermWords {
    let (first, second, low) = (BASE, BASE * BASE % PRIME, i as u64);
    let less = |x: u64| (PRIME - x % PRIME) % PRIME;
    let squares = (first * first % PRIME + first * second % PRIME + second * second % PRIME) % PRIME;
    let index = less(2 * squares + low * ((first + second) % PRIME));
    let upper = [2, low, index].iter().fold(0, |sum, number| (sum * first + number) % PRIME) * first;
    unknown_words(less(upper) << 32 | low, index as u32)
}

/// Windows of such unknowns.
pub fn unknowns(size: usize) -> Case {
    windows::compared(size, [unknown; 2], true)
}

/// A name is at least so long: then no two are the same but by rare chance, and those are left out.
const SHORT: usize = 16;

const LETTERS: &[u8] = b"abcdefghijklmnopqrstuvwxyz";

/// Names whose digests at the first base are all in one bucket, as the text that they are parts of and where they stand. Byte after byte the text gets
/// a letter with which a name ends, if one of the letters does.
fn flooded(count: usize) -> (Vec<u8>, Vec<Run>) {
    let (mut text, mut sums) = (Vec::new(), vec![0]);
    let (mut runs, mut seen) = (Vec::new(), HashSet::new());
    while runs.len() < count {
        let end = text.len();
        let mut moved = BASE;
        // What the digest of all bytes before a name adds to that of the text up to its end, for each start, the latest first.
        let before: Vec<u64> = (0..LONG.min(end + 1))
            .map(|back| {
                let added = sums[end - back] * moved % PRIME;
                moved = moved * BASE % PRIME;
                added
            })
            .collect();
        let whole = |letter: u8| (sums[end] * BASE + u64::from(letter)) % PRIME;
        let fits = |letter: u8| {
            let back = (SHORT - 1..before.len()).find(|&back| ((whole(letter) + PRIME - before[back]) % PRIME).is_multiple_of(BUCKETS))?;
            Some((letter, back))
        };
        let turned = LETTERS.iter().cycle().skip(end % LETTERS.len()).take(LETTERS.len());
        let found = turned.copied().find_map(fits);
        let letter = found.map_or(LETTERS[end * end % LETTERS.len()], |(letter, _)| letter);
        text.push(letter);
        sums.push(whole(letter));
        if let Some((_, back)) = found {
            let run = Run { start: end - back, len: back + 1 };
            if seen.insert(text[run.start..].to_vec()) {
                runs.push(run);
            }
        }
    }
    (text, runs)
}

/// So many starting bindings with such names.
pub fn bindings(count: usize) -> Case {
    let (text, runs) = flooded(count);
    let mut store = Store::new(&text);
    store.run(runs.iter().map(|name| identifier_words(name.start, name.len)));
    let names: Vec<[u32; 5]> = runs.iter().map(|&name| binding(E, name, Run { start: 0, len: 0 })).collect();
    let request = listing(Field { node: 0, len: 0 }, &[], &names, Answer::Refused(TOO_MANY_NAMES));
    Case { store, requests: vec![request] }
}
