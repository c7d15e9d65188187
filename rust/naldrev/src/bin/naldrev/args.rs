//! Arguments: the places and flags of a command, read from the words of the command line.

use std::ffi::{OsStr, OsString};
use std::os::unix::ffi::OsStrExt;

use crate::output::{count, Failure, Outcome, Output};

pub const VERSION: &str = concat!("naldrev ", env!("CARGO_PKG_VERSION"), "\n");

pub fn is_help(word: &OsStr) -> bool {
    word == "--help" || word == "-h"
}

pub fn is_version(word: &OsStr) -> bool {
    word == "--version" || word == "-V"
}

/// The number that a text says in digits alone.
pub fn number(text: &str) -> Option<usize> {
    text.parse().ok().filter(|_| text.bytes().all(|byte| byte.is_ascii_digit()))
}

/// A flag of a command.
pub struct Flag {
    pub name: &'static str,
    /// What its value is called in messages, if it takes one.
    pub value: Option<&'static str>,
    /// Whether it may be given more than once.
    pub many: bool,
}

impl Flag {
    pub const fn alone(name: &'static str) -> Flag {
        Flag { name, value: None, many: false }
    }

    pub const fn with(name: &'static str, value: &'static str) -> Flag {
        Flag { name, value: Some(value), many: false }
    }
}

/// A command: what it takes, its help, and what it does.
pub struct Command {
    pub name: &'static str,
    /// Its first paragraph is the usage.
    pub help: &'static str,
    pub flags: &'static [Flag],
    /// What its places are called in messages.
    pub wanted: &'static str,
    pub least: usize,
    pub most: usize,
    pub act: fn(&Given, &mut Output) -> Outcome,
}

impl Command {
    pub fn run(&self, words: &[OsString], out: &mut Output) -> Outcome {
        let options = || words.iter().take_while(|word| *word != "--");
        if options().any(|word| is_help(word)) {
            return out.answer(self.help);
        }
        if options().any(|word| is_version(word)) {
            return out.answer(VERSION);
        }
        (self.act)(&self.read(words)?, out)
    }

    /// A failure of the command's arguments.
    pub fn usage(&self, what: &str) -> Failure {
        Failure::usage(&format!("naldrev {}", self.name), what, self.help)
    }

    fn read(&self, words: &[OsString]) -> Result<Given, Failure> {
        let mut given = Given::default();
        let mut words = words.iter();
        while let Some(word) = words.next() {
            if word == "--" {
                given.places.extend(words.by_ref().cloned());
            } else if word.as_bytes().starts_with(b"-") && word != "-" {
                self.read_flag(word, &mut words, &mut given)?;
            } else {
                given.places.push(word.clone());
            }
        }
        if !(self.least..=self.most).contains(&given.places.len()) {
            return Err(self.usage(&format!("expected {}, found {}", self.wanted, count(given.places.len(), "argument"))));
        }
        Ok(given)
    }

    /// Reads `--name`, `--name VALUE` or `--name=VALUE`.
    fn read_flag<'a>(&self, word: &'a OsStr, words: &mut impl Iterator<Item = &'a OsString>, given: &mut Given) -> Result<(), Failure> {
        let mut parts = word.as_bytes().splitn(2, |byte| *byte == b'=');
        let name = parts.next().unwrap_or_default();
        let inside = parts.next().map(OsStr::from_bytes);
        let shown = String::from_utf8_lossy(name);
        let Some(flag) = self.flags.iter().find(|flag| flag.name.as_bytes() == name) else {
            return Err(self.usage(&format!("there is no option {shown}")));
        };
        if !flag.many && given.has(flag.name) {
            return Err(self.usage(&format!("{shown} is given twice")));
        }
        let value = match (flag.value, inside) {
            (None, None) => OsString::new(),
            (None, Some(_)) => return Err(self.usage(&format!("{shown} takes no value"))),
            (Some(_), Some(value)) => value.into(),
            (Some(what), None) => match words.next() {
                Some(value) => value.clone(),
                None => return Err(self.usage(&format!("{shown} takes a value: {shown} {what}"))),
            },
        };
        given.flags.push((flag.name, value));
        Ok(())
    }
}

/// What was given.
#[derive(Default)]
pub struct Given {
    pub places: Vec<OsString>,
    flags: Vec<(&'static str, OsString)>,
}

impl Given {
    pub fn has(&self, flag: &'static str) -> bool {
        self.values(flag).next().is_some()
    }

    /// The value of a flag that may be given once.
    pub fn value(&self, flag: &'static str) -> Option<&OsStr> {
        self.values(flag).next()
    }

    pub fn values(&self, flag: &'static str) -> impl Iterator<Item = &OsStr> {
        self.flags.iter().filter(move |(name, _)| *name == flag).map(|(_, value)| value.as_os_str())
    }
}
