//! Messages, patterns and their parts as text.

use std::fmt;
use std::slice;

use super::word::pattern_identifier;
use super::Printer;
use crate::{Expression, Item, Pattern, Value, Variable};

/// A part of a tree that the printer can write.
trait Printed: Sized {
    /// Writes the part; of a bracket nothing, whose contents are given back instead.
    fn print<W: fmt::Write + ?Sized>(&self, printer: &mut Printer<W>) -> Result<Option<&[Self]>, fmt::Error>;
}

impl Printed for Value {
    fn print<W: fmt::Write + ?Sized>(&self, printer: &mut Printer<W>) -> Result<Option<&[Value]>, fmt::Error> {
        match self {
            Value::Char(c) => printer.char(*c)?,
            Value::Identifier(word) | Value::Number(word) => printer.word(word)?,
            Value::Unknown { kind, level, index } => printer.unknown(*kind, *level, *index)?,
            Value::Bracket(contents) => return Ok(Some(contents)),
        }
        Ok(None)
    }
}

impl Printed for Item {
    fn print<W: fmt::Write + ?Sized>(&self, printer: &mut Printer<W>) -> Result<Option<&[Item]>, fmt::Error> {
        match self {
            Item::Char(c) => printer.char(*c)?,
            Item::Identifier(word) => printer.word(&pattern_identifier(word))?,
            Item::Number(word) => printer.word(word)?,
            Item::Variable(variable) => printer.variable(variable.kind, &variable.name)?,
            Item::Call => printer.word("<>")?,
            Item::Block => printer.word("{}")?,
            Item::Bracket(contents) => return Ok(Some(contents)),
        }
        Ok(None)
    }
}

/// Writes parts one after another. The brackets that are open stand in a list, not on the stack: values made by hand may be of any depth.
fn print<T: Printed>(out: &mut fmt::Formatter<'_>, parts: &[T]) -> fmt::Result {
    let mut printer = Printer::new(out);
    let mut open = vec![parts.iter()];
    while let Some(level) = open.last_mut() {
        if let Some(part) = level.next() {
            if let Some(contents) = part.print(&mut printer)? {
                printer.open()?;
                open.push(contents.iter());
            }
        } else {
            open.pop();
            if !open.is_empty() {
                printer.close()?;
            }
        }
    }
    printer.finish()
}

impl fmt::Display for Value {
    fn fmt(&self, f: &mut fmt::Formatter<'_>) -> fmt::Result {
        print(f, slice::from_ref(self))
    }
}

impl fmt::Display for Expression {
    fn fmt(&self, f: &mut fmt::Formatter<'_>) -> fmt::Result {
        print(f, self)
    }
}

/// An identifier such as `s1`, which no pattern can have as it is, is written `S1`.
impl fmt::Display for Item {
    fn fmt(&self, f: &mut fmt::Formatter<'_>) -> fmt::Result {
        print(f, slice::from_ref(self))
    }
}

/// An identifier such as `s1`, which no pattern can have as it is, is written `S1`.
impl fmt::Display for Pattern {
    fn fmt(&self, f: &mut fmt::Formatter<'_>) -> fmt::Result {
        print(f, self)
    }
}

/// As Refal writes it, such as `e.Item`.
impl fmt::Display for Variable {
    fn fmt(&self, f: &mut fmt::Formatter<'_>) -> fmt::Result {
        Printer::new(f).variable(self.kind, &self.name)
    }
}
