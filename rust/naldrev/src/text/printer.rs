//! Writing terms one by one.

use std::fmt;

use super::KINDS;
use crate::{UnknownKind, VariableKind};

/// What was written last.
#[derive(Clone, Copy, PartialEq, Eq)]
enum Last {
    /// Nothing, or an opening bracket: no blank follows.
    Start,
    /// A character, in quotes that are still open.
    Character,
    /// Any other term.
    Term,
}

/// Writes terms as they come: a blank between terms, neighbouring characters in one pair of quotes. `finish` has to be called at the end.
pub(crate) struct Printer<'a, W: fmt::Write + ?Sized> {
    out: &'a mut W,
    last: Last,
}

impl<'a, W: fmt::Write + ?Sized> Printer<'a, W> {
    /// A printer that has written nothing.
    pub(crate) fn new(out: &'a mut W) -> Self {
        Printer { out, last: Last::Start }
    }

    /// A character.
    pub(crate) fn char(&mut self, c: char) -> fmt::Result {
        if self.last != Last::Character {
            self.blank()?;
            self.out.write_char('\'')?;
            self.last = Last::Character;
        }
        write_quoted(self.out, c)
    }

    /// An identifier, a number, or any other text that stands by itself.
    pub(crate) fn word(&mut self, word: &str) -> fmt::Result {
        self.term(format_args!("{word}"))
    }

    /// An opening bracket. Its contents follow, then `close`.
    pub(crate) fn open(&mut self) -> fmt::Result {
        self.term(format_args!("("))?;
        self.last = Last::Start;
        Ok(())
    }

    /// A closing bracket.
    pub(crate) fn close(&mut self) -> fmt::Result {
        self.close_quotes()?;
        self.last = Last::Term;
        self.out.write_char(')')
    }

    /// An unknown.
    pub(crate) fn unknown(&mut self, kind: UnknownKind, level: u64, index: u32) -> fmt::Result {
        let letter = KINDS[kind as usize].0;
        self.term(format_args!("?{letter}.{level}.{index}"))
    }

    /// A variable.
    pub(super) fn variable(&mut self, kind: VariableKind, name: &str) -> fmt::Result {
        self.term(format_args!("{}.{name}", kind.letter()))
    }

    /// Closes quotes that are open.
    pub(crate) fn finish(mut self) -> fmt::Result {
        self.close_quotes()
    }

    fn term(&mut self, text: fmt::Arguments) -> fmt::Result {
        self.blank()?;
        self.last = Last::Term;
        self.out.write_fmt(text)
    }

    fn blank(&mut self) -> fmt::Result {
        self.close_quotes()?;
        if self.last == Last::Start {
            return Ok(());
        }
        self.out.write_char(' ')
    }

    fn close_quotes(&mut self) -> fmt::Result {
        if self.last == Last::Character {
            self.out.write_char('\'')?;
        }
        Ok(())
    }
}

/// Whether a character can stand in a text as it is. Blanks other than the space, characters without a shape of their own (control, format,
/// combining) and unassigned ones cannot.
fn printable(c: char) -> bool {
    c == ' ' || c.is_ascii_graphic() || !(c.is_control() || c.escape_debug().nth(1) == Some('u'))
}

/// A character as it stands anywhere in a text: as it is, or by its number.
pub(super) fn write_shown<W: fmt::Write + ?Sized>(out: &mut W, c: char) -> fmt::Result {
    if printable(c) {
        return out.write_char(c);
    }
    write!(out, "\\x{{{:X}}}", u32::from(c))
}

/// A character as it stands in quotes.
fn write_quoted<W: fmt::Write + ?Sized>(out: &mut W, c: char) -> fmt::Result {
    match c {
        '\'' => out.write_str("\\'"),
        '\\' => out.write_str("\\\\"),
        '\n' => out.write_str("\\n"),
        '\t' => out.write_str("\\t"),
        '\r' => out.write_str("\\r"),
        _ => write_shown(out, c),
    }
}
