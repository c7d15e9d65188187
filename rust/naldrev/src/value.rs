//! Terms as a tree of Rust values: what is added to a store, and what is read back from it. Their text form is in `text`.

use std::ops::Deref;

/// What an unknown stands for.
#[derive(Clone, Copy, Debug, PartialEq, Eq, Hash)]
pub enum UnknownKind {
    /// One symbol.
    Symbol,
    /// One term.
    Term,
    /// Any number of terms.
    Expression,
}

impl UnknownKind {
    /// The kinds, in the order of their numbers in a record.
    pub(crate) const ALL: [UnknownKind; 3] = [UnknownKind::Symbol, UnknownKind::Term, UnknownKind::Expression];
}

/// A term with its contents. Equality here is by spelling: `kWh` and `KWH` are two values, and so are `7` and `007`. The terms of a store are
/// compared by [`crate::Store::equal`] and [`crate::Store::compare_runs`], which ignore the case of identifiers and leading zeros of numbers.
///
/// What is read from a text or a store is at most [`crate::MAX_DEPTH`] brackets deep. A value made by hand may be deeper: a store refuses it, and
/// `clone` and `{:?}` of one many thousand deep need more stack than a thread has.
#[derive(Clone, Debug, PartialEq, Eq, Hash)]
pub enum Value {
    /// A character.
    Char(char),
    /// An ASCII letter, then letters, digits, `-` or `_`; at most 255 bytes.
    Identifier(String),
    /// ASCII digits, 1 to 255 of them, kept as written.
    Number(String),
    /// A bracket with its contents.
    Bracket(Vec<Value>),
    /// An unknown.
    Unknown {
        /// What it stands for.
        kind: UnknownKind,
        /// Its level.
        level: u64,
        /// Its index.
        index: u32,
    },
}

impl Value {
    /// The characters of a text.
    pub fn chars(text: &str) -> Vec<Value> {
        text.chars().map(Value::Char).collect()
    }
}

/// Gives a struct of one vector what a vector's reader expects: a slice by `Deref`, making one of values, and going through it.
macro_rules! sequence {
    ($list:ident, $part:ident) => {
        impl Deref for $list {
            type Target = [$part];

            fn deref(&self) -> &[$part] {
                &self.0
            }
        }

        impl From<Vec<$part>> for $list {
            fn from(parts: Vec<$part>) -> $list {
                $list(parts)
            }
        }

        impl FromIterator<$part> for $list {
            fn from_iter<I: IntoIterator<Item = $part>>(parts: I) -> $list {
                $list(parts.into_iter().collect())
            }
        }

        impl IntoIterator for $list {
            type Item = $part;
            type IntoIter = std::vec::IntoIter<$part>;

            fn into_iter(self) -> Self::IntoIter {
                self.0.into_iter()
            }
        }

        impl<'a> IntoIterator for &'a $list {
            type Item = &'a $part;
            type IntoIter = std::slice::Iter<'a, $part>;

            fn into_iter(self) -> Self::IntoIter {
                self.0.iter()
            }
        }
    };
}
pub(crate) use sequence;

/// Terms one after another, Refal's expression: a message, or what a variable stands for.
///
/// ```
/// use naldrev::{Expression, Value};
/// let message: Expression = "Session 'ab' (kWh 42)".parse()?;
/// assert_eq!(message.len(), 4);
/// assert_eq!(message[1], Value::Char('a'));
/// assert_eq!(message.to_string(), "Session 'ab' (kWh 42)");
/// # Ok::<(), naldrev::TextError>(())
/// ```
#[derive(Clone, Debug, Default, PartialEq, Eq, Hash)]
pub struct Expression(pub Vec<Value>);

sequence!(Expression, Value);
