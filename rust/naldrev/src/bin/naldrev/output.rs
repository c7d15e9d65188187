//! What the command prints and how it ends.

use std::fmt;
use std::fs::File;
use std::io::{self, BufWriter, Write};
use std::os::fd::AsFd;

use naldrev::{Error, Refusal, TextError, Variable, MAX_TERMS};

/// The exit status, as users of grep and jq expect it.
#[derive(Clone, Copy, PartialEq, Eq)]
pub enum Status {
    Fits = 0,
    NoMatch = 1,
    Bad = 2,
    Held = 3,
}

/// How a command ends. A failure is [`Status::Bad`].
pub type Outcome = Result<Status, Failure>;

/// Why the command cannot answer, as standard error shows it.
#[derive(Debug)]
pub struct Failure(String);

impl fmt::Display for Failure {
    fn fmt(&self, f: &mut fmt::Formatter<'_>) -> fmt::Result {
        f.write_str(&self.0)
    }
}

impl Failure {
    pub fn new(what: impl Into<String>) -> Failure {
        Failure(what.into())
    }

    /// An error of the text of a file or an argument, with its position.
    pub fn text(name: &str, error: &TextError) -> Failure {
        Failure::place(name, error.line(), error.column(), error.message())
    }

    pub fn place(name: &str, line: usize, column: usize, what: impl fmt::Display) -> Failure {
        Failure(format!("{name}:{line}:{column}: {what}"))
    }

    /// What the store says of a file or an argument. The command's store only fills up at its limit, so that limit is named.
    pub fn store(name: &str, error: &Error) -> Failure {
        match error {
            Error::Refused(Refusal::TermsFull) => {
                Failure(format!("{name}: the terms are over {MAX_TERMS} together, those in brackets counted"))
            }
            _ => Failure(format!("{name}: {error}")),
        }
    }

    /// Arguments that the command does not take; the first paragraph of the help is shown.
    pub fn usage(command: &str, what: &str, help: &str) -> Failure {
        let usage = help.split("\n\n").next().unwrap_or(help);
        Failure(format!("{command}: {what}\n{usage}\n({command} --help tells more)"))
    }
}

/// Writes a line to standard error. Where that fails too, nothing is left to tell it to.
pub fn say(what: impl fmt::Display) {
    let _ = writeln!(io::stderr(), "{what}");
}

/// Standard output. A failed write is a [`Failure`].
pub struct Output(BufWriter<File>);

fn failed(error: io::Error) -> Failure {
    Failure(format!("naldrev: standard output cannot be written: {error}"))
}

impl Output {
    /// Not by `io::stdout`, which drops what is written to an output that may not be written, and says nothing.
    pub fn new() -> Result<Output, Failure> {
        let output = io::stdout().as_fd().try_clone_to_owned().map_err(failed)?;
        Ok(Output(BufWriter::new(output.into())))
    }

    pub fn line(&mut self, line: impl fmt::Display) -> Result<(), Failure> {
        writeln!(self.0, "{line}").map_err(failed)
    }

    pub fn bytes(&mut self, bytes: &[u8]) -> Result<(), Failure> {
        self.0.write_all(bytes).map_err(failed)
    }

    /// Prints a text as the whole answer.
    pub fn answer(&mut self, text: &str) -> Outcome {
        self.bytes(text.as_bytes())?;
        Ok(Status::Fits)
    }

    /// Hands over all that was printed.
    pub fn finish(&mut self) -> Result<(), Failure> {
        self.0.flush().map_err(failed)
    }
}

/// A variable and what it stands for, as it is printed; nothing follows the sign where it stands for no terms.
pub struct Binding<'a> {
    pub variable: &'a Variable,
    pub terms: &'a str,
}

impl fmt::Display for Binding<'_> {
    fn fmt(&self, f: &mut fmt::Formatter<'_>) -> fmt::Result {
        let blank = if self.terms.is_empty() { "" } else { " " };
        write!(f, "{} ={blank}{}", self.variable, self.terms)
    }
}

/// A number with its noun, such as `1 message` or `2 messages`.
pub fn count(number: usize, noun: &str) -> String {
    format!("{number} {noun}{}", if number == 1 { "" } else { "s" })
}
