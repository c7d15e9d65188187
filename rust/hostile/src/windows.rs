//! Brackets over windows of a text: for a library that numbers terms by what they hold, by hashing or by sorting.
use crate::names;
use crate::request::{Answer, Call, Case, E, Request, T, binding, listing, variable};
use crate::store::{Field, Run, Store, TermWords, char_words, identifier_words, unknown_words};
use naldrev::MAX_DEPTH;

const NAMES: &[u8] = b"12";

/// How long a text is, and how many windows there are of it: two of each are nearly `size` terms.
fn shape(size: usize) -> (usize, usize) {
    (2 * size / 5 - 1, size / 10 - 1)
}

/// The windows of a text, each starting a term further; the last one ends with the text.
fn windows(store: &mut Store, text: Run, count: usize) -> Run {
    store.brackets(count, 1, |i| Run { start: text.start + i, len: text.len - count + 1 })
}

/// Two texts, and a bracket over all windows of each: those are compared.
pub fn compared(size: usize, texts: [impl Fn(usize) -> TermWords; 2], yes: bool) -> Case {
    compared_in(Store::new(NAMES), size, texts, yes)
}

fn compared_in(mut store: Store, size: usize, texts: [impl Fn(usize) -> TermWords; 2], yes: bool) -> Case {
    let (len, count) = shape(size);
    let texts = texts.map(|text| store.run((0..len).map(text)));
    let groups = texts.map(|text| windows(&mut store, text, count));
    compared_groups(store, groups, 1, yes)
}

/// A bracket over each of two groups of brackets of this depth: those are compared.
fn compared_groups(mut store: Store, groups: [Run; 2], depth: usize, yes: bool) -> Case {
    let tops = groups.map(|group| Run::one(store.bracket(group, depth + 1)));
    Case { store, requests: vec![Request::compared(Call::CompareRuns(tops[0], tops[1]), yes)] }
}

/// All windows are equal.
pub fn same(size: usize) -> Case {
    compared(size, [|_| char_words('a'); 2], true)
}

/// `b` in the midst of `a`s: every window has it at another place, after a long beginning that it shares with many.
fn one_b(size: usize) -> impl Fn(usize) -> TermWords + Copy {
    let middle = shape(size).0 / 2;
    move |i| char_words(if i == middle { 'b' } else { 'a' })
}

pub fn all_differ(size: usize) -> Case {
    compared(size, [one_b(size); 2], true)
}

/// `abab..`, and in the second text the last term is another, which only the last window has.
pub fn defect(size: usize) -> Case {
    let last = shape(size).0 - 1;
    let text = |defect: char| move |i: usize| char_words(if i == last { defect } else { ['a', 'b'][i % 2] });
    compared(size, [text('c'), text('d')], false)
}

/// Terms of a Thue-Morse block. By a polynomial in any odd number, modulo 2 to the power of 32, it has the hash of its complement.
const BLOCK: usize = 256;

/// Thue-Morse blocks and their complements, mixed: many windows are different and have the same such hash.
pub fn thue_morse(size: usize) -> Case {
    let text = |i: usize| {
        let mixed = ((i / BLOCK) as u32 + 1).wrapping_mul(2_654_435_769) >> 31;
        char_words(if ((i % BLOCK).count_ones() + mixed).is_multiple_of(2) { 'a' } else { 'b' })
    };
    compared(size, [text; 2], true)
}

/// Unknowns that differ in the uppermost bits alone.
pub fn unknowns(size: usize) -> Case {
    compared(size, [|i: usize| unknown_words((i as u64) << 48, 0); 2], true)
}

/// Chars whose sums over windows are few: each window has as many of each.
pub fn rotated(size: usize) -> Case {
    let period = shape(size).0 - shape(size).1 + 1;
    compared(size, [|i: usize| char_words(if (i % period).is_multiple_of(period / 2 + 1) { 'b' } else { 'a' }); 2], true)
}

/// Identifiers that are all different and begin alike, in small letters and in capitals.
pub fn identifiers(size: usize) -> Case {
    let small = names::text(shape(size).0 + names::LONG);
    let store = Store::new(&[small.clone(), small.to_ascii_uppercase()].concat());
    compared_in(store, size, [0, small.len()].map(|offset| move |i| identifier_words(offset + i, names::LONG)), true)
}

/// All beginnings of a text of one char.
pub fn beginnings(size: usize) -> Case {
    let mut store = Store::new(NAMES);
    let count = size / 4 - 1;
    let texts = [(); 2].map(|()| store.run((0..count).map(|_| char_words('a'))));
    let groups = texts.map(|text| store.brackets(count, 1, |i| Run { start: text.start, len: i + 1 }));
    compared_groups(store, groups, 1, true)
}

/// Windows of windows: the windows of a text are the text of the next level, and so on.
fn windows_of_windows(size: usize, levels: usize) -> Case {
    let mut store = Store::new(NAMES);
    let count = size / (2 * levels + 3);
    let groups = [(); 2].map(|()| {
        let text = store.run((0..count).map(|i| char_words(if i == count / 2 { 'b' } else { 'a' })));
        let window = |below: Run| move |i: usize| Run { start: below.start + i % (count / 2), len: count / 2 + 1 };
        (1..=levels).fold(text, |below, depth| store.brackets(count, depth, window(below)))
    });
    compared_groups(store, groups, levels, true)
}

/// On a few levels.
pub fn levels(size: usize) -> Case {
    windows_of_windows(size, 4)
}

/// On as many levels as there can be: for a library that goes through all terms once for each level.
pub fn all_levels(size: usize) -> Case {
    windows_of_windows(size, MAX_DEPTH - 1)
}

/// Terms of a bracket of `permutations`.
const PERMUTED: usize = 8;

/// The contents number i of `permutations`: the same eight chars, each time in another order.
fn permutation(mut i: usize) -> [TermWords; PERMUTED] {
    let mut letters: Vec<char> = ('a'..).take(PERMUTED).collect();
    std::array::from_fn(|_| {
        let left = letters.len();
        let letter = letters.remove(i % left);
        i /= left;
        char_words(letter)
    })
}

/// Brackets over the same eight chars, in another order each: for a hash that is a sum. Nothing is shared: it is slow only with such a hash.
pub fn permutations(size: usize) -> Case {
    let mut store = Store::new(NAMES);
    let count = size / (2 * PERMUTED + 2) - 1;
    let groups = [(); 2].map(|()| {
        let contents = store.run((0..count).flat_map(permutation));
        store.brackets(count, 1, |i| Run { start: contents.start + i * PERMUTED, len: PERMUTED })
    });
    compared_groups(store, groups, 1, true)
}

/// `e.1 t.1 e.2` over all windows of one text, with the first window of another, equal text as `t.1`: it fits the first alone.
pub fn bound(size: usize) -> Case {
    let mut store = Store::new(NAMES);
    let (len, count) = shape(size);
    let texts = [one_b(size); 2].map(|text| store.run((0..len).map(text)));
    let given = windows(&mut store, texts[1], count).start;
    // Of the given text only one window is needed.
    store.terms_used = given + 1;
    let field = windows(&mut store, texts[0], count);
    let node = store.field_of(&[field]).node;
    let (before, after) = (Run { start: field.start, len: 0 }, Run { start: field.start + 1, len: count - 1 });
    let pattern = [variable(E, 0), variable(T, 0), variable(E, 1)];
    let candidate = Answer::Candidate(vec![Run::one(given), before, after], Vec::new());
    let request = listing(Field { node, len: count }, &pattern, &[binding(T, Run { start: 0, len: 1 }, Run::one(given))], candidate);
    Case { store, requests: vec![request] }
}

/// Little to compare in a store full of windows: the first two chars, and the first windows of two equal texts. A library that numbers all
/// terms of a store, whatever it is asked, takes long here.
pub fn idle(size: usize) -> Case {
    let mut store = Store::new(NAMES);
    let (len, count) = shape(size);
    let texts = [one_b(size); 2].map(|text| store.run((0..len).map(text)));
    let groups = texts.map(|text| windows(&mut store, text, count));
    let chars = store.field_of(&[Run { start: 0, len: 2 }]);
    let twice = listing(chars, &[variable(T, 0); 2], &[], Answer::Candidate(vec![Run::one(0)], Vec::new()));
    Case { store, requests: vec![twice, Request::compared(Call::CompareRuns(Run::one(groups[0].start), Run::one(groups[1].start)), true)] }
}
