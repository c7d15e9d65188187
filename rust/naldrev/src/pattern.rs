//! Patterns as written: literals, brackets and variables. Their text form is in `text`; [`crate::Store::prepare`] makes the words of one store of
//! them.

use std::hash::{Hash, Hasher};
use std::ops::Deref;

use crate::records::item;
use crate::text::KINDS;
use crate::value::sequence;

/// The kinds of variables.
#[derive(Clone, Copy, Debug, PartialEq, Eq, Hash)]
pub enum VariableKind {
    /// `s`: one symbol.
    S,
    /// `t`: one term.
    T,
    /// `e`: any number of terms.
    E,
}

impl VariableKind {
    const ALL: [VariableKind; 3] = [VariableKind::S, VariableKind::T, VariableKind::E];

    /// The kind's number in a record of a pattern or of bindings.
    pub(crate) fn code(self) -> u32 {
        match self {
            VariableKind::S => item::S_VARIABLE,
            VariableKind::T => item::T_VARIABLE,
            VariableKind::E => item::E_VARIABLE,
        }
    }

    pub(crate) fn from_code(code: u32) -> Option<VariableKind> {
        VariableKind::ALL.into_iter().find(|kind| kind.code() == code)
    }

    /// The letter that Refal writes it with.
    pub fn letter(self) -> char {
        KINDS[self as usize].0
    }
}

/// A variable: its kind and its name, of letters, digits, `-` or `_`. Two are the same if kind and name agree, ASCII case ignored.
#[derive(Clone, Debug)]
pub struct Variable {
    /// Its kind.
    pub kind: VariableKind,
    /// Its name.
    pub name: String,
}

impl PartialEq for Variable {
    fn eq(&self, other: &Variable) -> bool {
        self.kind == other.kind && self.name.eq_ignore_ascii_case(&other.name)
    }
}

impl Eq for Variable {}

/// Variables that are equal have one hash, so ASCII case is ignored here too.
impl Hash for Variable {
    fn hash<H: Hasher>(&self, state: &mut H) {
        self.kind.hash(state);
        self.name.to_ascii_lowercase().hash(state);
    }
}

/// The variable `s.name`.
pub fn s(name: &str) -> Variable {
    Variable { kind: VariableKind::S, name: name.into() }
}

/// The variable `t.name`.
pub fn t(name: &str) -> Variable {
    Variable { kind: VariableKind::T, name: name.into() }
}

/// The variable `e.name`.
pub fn e(name: &str) -> Variable {
    Variable { kind: VariableKind::E, name: name.into() }
}

/// A part of a pattern.
#[derive(Clone, Debug, PartialEq, Eq, Hash)]
pub enum Item {
    /// A character.
    Char(char),
    /// An identifier.
    Identifier(String),
    /// A number.
    Number(String),
    /// A bracket with the pattern of its contents.
    Bracket(Vec<Item>),
    /// A variable.
    Variable(Variable),
    /// A call, which no term matches.
    Call,
    /// A block, which no term matches.
    Block,
}

impl From<Variable> for Item {
    fn from(variable: Variable) -> Item {
        Item::Variable(variable)
    }
}

impl From<char> for Item {
    fn from(c: char) -> Item {
        Item::Char(c)
    }
}

/// A pattern as written.
///
/// ```
/// use naldrev::{s, Item, Pattern};
/// let pattern: Pattern = "(kWh s.energy)".parse()?;
/// assert_eq!(*pattern, [Item::Bracket(vec![Item::Identifier("kWh".into()), s("energy").into()])]);
/// assert_eq!(pattern.to_string(), "(kWh s.energy)");
/// # Ok::<(), naldrev::TextError>(())
/// ```
#[derive(Clone, Debug, Default, PartialEq, Eq, Hash)]
pub struct Pattern(pub Vec<Item>);

sequence!(Pattern, Item);

#[cfg(test)]
mod tests {
    use super::*;
    use std::collections::HashSet;

    #[test]
    fn variables_agree_without_case() {
        assert_eq!(e("X"), e("x"));
        assert_ne!(e("X"), s("X"));
        assert_ne!(t("X"), t("Y"));
    }

    #[test]
    fn kinds_go_both_ways() {
        for kind in VariableKind::ALL {
            assert_eq!(VariableKind::from_code(kind.code()), Some(kind));
        }
        assert_eq!(VariableKind::from_code(4), None);
    }

    #[test]
    fn a_set_of_variables_ignores_case() {
        let known = HashSet::from([e("Point"), s("Point")]);
        assert!(known.contains(&e("pOINT")));
        assert!(!known.contains(&t("Point")));
    }
}
