//! Term records as values of the Rust, and values compared as it was handed them. Compiled twice: for value.rs, and for the copy that shows its nodes.
use super::value::{Slice, Unknown, UnknownKind, Value};
use naldrev::TERM_WIDTH;
use refal_ast::Symbol;

fn spelled(names: &[u8], offset: u32, len: u32) -> String {
    String::from_utf8(names[offset as usize..(offset + len) as usize].to_vec()).expect("ASCII")
}

/// A number's text without leading zeros, a last digit kept. The original compares numbers by text, so it is handed them stripped (02: 2.9).
pub fn stripped(text: &str) -> &str {
    let zeros = text.bytes().take_while(|b| *b == b'0').count();
    &text[zeros.min(text.len() - 1)..]
}

/// An unknown's level from its two words.
fn level(lower: u32, upper: u32) -> u64 {
    u64::from(upper) << 32 | u64::from(lower)
}

/// The values of all terms, by number; numbers are stripped.
pub fn values(names: &[u8], terms: &[u32]) -> Vec<Value> {
    let kinds = [UnknownKind::Symbol, UnknownKind::Term, UnknownKind::Expression];
    let mut made: Vec<Value> = Vec::with_capacity(terms.len() / TERM_WIDTH);
    for record in terms.chunks(TERM_WIDTH) {
        let [kind, a, b, c, d] = [0, 1, 2, 3, 4].map(|word| record[word]);
        made.push(match kind {
            0 => Value::Char(char::from_u32(a).expect("a scalar value")),
            1 => Value::identifier(spelled(names, a, b)),
            2 => Value::number(stripped(&spelled(names, a, b)).to_string()),
            3 => Value::Bracket(Slice::copied(&made[a as usize..(a + b) as usize])),
            _ => Value::Unknown(Unknown::new(kinds[a as usize], level(b, d), Symbol::Number(c.to_string()))),
        });
    }
    made
}

/// Whether two lists of terms are spelled alike.
pub fn alike(left: &[Value], right: &[Value]) -> bool {
    left.len() == right.len() && left.iter().zip(right).all(|(l, r)| one_alike(l, r))
}

fn one_alike(left: &Value, right: &Value) -> bool {
    match (left, right) {
        (Value::Identifier(l), Value::Identifier(r)) => l == r,
        (Value::Bracket(l), Value::Bracket(r)) => {
            let (l, r) = (l.terms(), r.terms());
            (l.as_ptr(), l.len()) == (r.as_ptr(), r.len()) || alike(l, r)
        }
        _ => left == right,
    }
}
