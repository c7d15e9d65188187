//! Long names that begin alike.
use crate::request::{Answer, Case, E, TOO_MANY_NAMES, binding, listing};
use crate::store::{Field, Run, Store, identifier_words};

/// The bytes of a name, as many as one may have.
pub const LONG: usize = 255;

/// The text goes by periods of `a`s with three other letters after them, each time others. A name is long enough for a whole such mark to be
/// in it, wherever it starts: so no two are the same.
const PERIOD: usize = LONG - 3;

/// The letters of the marks: enough for the periods of the longest text.
const MARKS: &[u8] = b"bcdefgh";

/// A text with so many bytes, whose windows of `LONG` bytes are all different and share long beginnings.
pub fn text(len: usize) -> Vec<u8> {
    let byte = |i: usize| {
        let (period, place) = (i / PERIOD, i % PERIOD);
        match (place + 3).checked_sub(PERIOD) {
            None => b'a',
            Some(digit) => MARKS[period / MARKS.len().pow(digit as u32) % MARKS.len()],
        }
    };
    (0..len).map(byte).collect()
}

/// So many starting bindings whose names are the windows of the text: all are different, and so there are too many.
///
/// The store has an identifier for each window, so that its checks read as many bytes as those of the names.
pub fn bindings(count: usize) -> Case {
    let mut store = Store::new(&text(count - 1 + LONG));
    store.run((0..count).map(|i| identifier_words(i, LONG)));
    let names: Vec<[u32; 5]> = (0..count).map(|i| binding(E, Run { start: i, len: LONG }, Run { start: 0, len: 0 })).collect();
    let request = listing(Field { node: 0, len: 0 }, &[], &names, Answer::Refused(TOO_MANY_NAMES));
    Case { store, requests: vec![request] }
}
