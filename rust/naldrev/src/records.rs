//! The records of words: their widths, their kinds and their limits, as docs/REFERENCE.md in the repository has them.

/// The words of a term: kind, a, b, c, d.
pub const TERM_WIDTH: usize = 5;
/// The words of a node.
pub const NODE_WIDTH: usize = 6;
/// The words of a run: start and length.
pub const RUN_WIDTH: usize = 2;
/// The words of a record of a pattern.
pub const PATTERN_WIDTH: usize = 4;
/// The words of a starting binding.
pub const BINDING_WIDTH: usize = 5;

/// The most bytes of names.
pub const MAX_NAMES: usize = 65_536;
/// The most terms of a store.
pub const MAX_TERMS: usize = 65_536;
/// The most nodes of a store.
pub const MAX_NODES: usize = 65_536;
/// The most bytes of an identifier, a number or the name of a variable.
pub const MAX_TEXT: usize = 255;
/// The deepest bracket of terms.
pub const MAX_DEPTH: usize = 255;
/// The deepest bracket of a pattern.
pub const MAX_NESTING: usize = 32;
/// The most records of a pattern; a bracket is two.
pub const MAX_RECORDS: usize = 256;
/// The most variables of a pattern and its starting bindings together.
pub const MAX_VARIABLES: usize = 64;
/// The most runs of a list.
pub const MAX_RUNS: usize = 64;

/// The bytes of stack that a call of the library needs at most. A thread that has less can die of it.
pub const STACK_BYTES: usize = 524_288;

/// The first word of a term. The first three are kinds of pattern records too.
pub(crate) mod term {
    pub(crate) const CHAR: u32 = 0;
    pub(crate) const IDENTIFIER: u32 = 1;
    pub(crate) const NUMBER: u32 = 2;
    pub(crate) const BRACKET: u32 = 3;
    pub(crate) const UNKNOWN: u32 = 4;
}

/// The first word of a record of a pattern. Those of variables are kinds of bindings too.
pub(crate) mod item {
    pub(crate) const OPEN: u32 = 3;
    pub(crate) const CLOSE: u32 = 4;
    pub(crate) const S_VARIABLE: u32 = 5;
    pub(crate) const T_VARIABLE: u32 = 6;
    pub(crate) const E_VARIABLE: u32 = 7;
    pub(crate) const CALL: u32 = 8;
    pub(crate) const BLOCK: u32 = 9;
}

// ---- levels ----

/// The words b and d of an unknown of this level: its lower and its upper half.
pub(crate) fn level_words(level: u64) -> [u32; 2] {
    [level as u32, (level >> 32) as u32]
}

/// The level of an unknown with these words b and d.
pub(crate) fn level_of([lower, upper]: [u32; 2]) -> u64 {
    u64::from(upper) << 32 | u64::from(lower)
}

// ---- texts ----

/// A letter, a digit, `-` or `_`.
pub(crate) fn is_name_byte(byte: u8) -> bool {
    byte.is_ascii_alphanumeric() || matches!(byte, b'-' | b'_')
}

/// Whether a text is spelled as an identifier, whatever its length.
pub(crate) fn spells_identifier(text: &str) -> bool {
    text.starts_with(|c: char| c.is_ascii_alphabetic()) && text.bytes().all(is_name_byte)
}

/// Whether a text is spelled as a number, whatever its length.
pub(crate) fn spells_number(text: &str) -> bool {
    !text.is_empty() && text.bytes().all(|byte| byte.is_ascii_digit())
}

/// Whether a text is spelled as the name of a variable, whatever its length.
pub(crate) fn spells_name(text: &str) -> bool {
    !text.is_empty() && text.bytes().all(is_name_byte)
}
