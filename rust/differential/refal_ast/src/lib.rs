//! Stands in for the crate of that name, which matcher.rs and value.rs use and which is not at hand. The two functions are the stand-ins
//! that document 01 names ("Terms and names"); the types have what the two files read of them.

#[derive(Debug, Clone, PartialEq, Eq, Hash)]
pub enum Symbol {
    Char(char),
    Identifier(String),
    Number(String),
}

#[derive(Debug, Clone)]
pub struct Term {
    pub kind: TermKind,
}

#[derive(Debug, Clone)]
pub enum TermKind {
    Symbol(Symbol),
    Bracket(Vec<Term>),
    Variable(Variable),
    Call {},
    Block {},
}

#[derive(Debug, Clone, Copy, PartialEq, Eq, Hash)]
pub enum VariableKind {
    Symbol,
    Term,
    Expression,
}

#[derive(Debug, Clone)]
pub struct Variable {
    pub kind: VariableKind,
    pub name: String,
}

/// Identifiers are equal with ASCII case ignored.
pub fn identifiers_equal(left: &str, right: &str) -> bool {
    left.eq_ignore_ascii_case(right)
}

/// A variable's index with its ASCII letters lowered.
pub fn canonical_variable_index(name: &str) -> String {
    name.to_ascii_lowercase()
}
