//! Texts from the command line, from files and from standard input.

use std::ffi::OsStr;
use std::fs::File;
use std::io::{self, Read};
use std::os::fd::AsFd;
use std::os::unix::ffi::OsStrExt;
use std::str::FromStr;

use naldrev::TextError;

use crate::output::Failure;

/// U+FEFF in UTF-8.
const BYTE_ORDER_MARK: &[u8] = b"\xEF\xBB\xBF";

/// A text with the name that errors show.
pub struct Source {
    pub name: String,
    pub text: String,
}

impl Source {
    /// Reads the whole text as one message or one pattern.
    pub fn parse<T: FromStr<Err = TextError>>(&self) -> Result<T, Failure> {
        self.text.parse().map_err(|error| Failure::text(&self.name, &error))
    }
}

/// Reads the arguments of one command. Standard input is read once.
#[derive(Default)]
pub struct Inputs {
    stdin_read: bool,
}

impl Inputs {
    /// An argument that is a text, `@FILE` or `-`; `what` is its name where it is a text.
    pub fn text(&mut self, what: &str, word: &OsStr) -> Result<Source, Failure> {
        if word == "-" || word.as_bytes().starts_with(b"@") {
            return self.file(word);
        }
        utf8(what, word.as_bytes().to_vec())
    }

    /// An argument that is `FILE`, `@FILE` or `-`. A byte order mark at its start, which editors on Windows write, is no part of the text.
    pub fn file(&mut self, word: &OsStr) -> Result<Source, Failure> {
        let (name, mut bytes) = self.bytes(word)?;
        if bytes.starts_with(BYTE_ORDER_MARK) {
            bytes.drain(..BYTE_ORDER_MARK.len());
        }
        utf8(&name, bytes)
    }

    /// The bytes of such an argument, and its name.
    pub fn bytes(&mut self, word: &OsStr) -> Result<(String, Vec<u8>), Failure> {
        let file = OsStr::from_bytes(word.as_bytes().strip_prefix(b"@").unwrap_or(word.as_bytes()));
        let name = file.to_string_lossy().into_owned();
        if name.is_empty() {
            return Err(Failure::new(format!("expected a file, found {:?}", word.to_string_lossy())));
        }
        let read = if word == "-" { self.stdin()? } else { std::fs::read(file) };
        match read {
            Ok(bytes) => Ok((name, bytes)),
            Err(error) if error.kind() == io::ErrorKind::NotFound => Err(Failure::new(format!("{name}: there is no such file"))),
            Err(error) if error.kind() == io::ErrorKind::IsADirectory => Err(Failure::new(format!("{name}: a folder, not a file"))),
            Err(error) => Err(Failure::new(format!("{name}: cannot be read: {error}"))),
        }
    }

    fn stdin(&mut self) -> Result<io::Result<Vec<u8>>, Failure> {
        if self.stdin_read {
            return Err(Failure::new("-: standard input can be read only once"));
        }
        self.stdin_read = true;
        Ok(read_stdin())
    }
}

/// Not by `io::stdin`, which takes an input that may not be read for an empty one.
fn read_stdin() -> io::Result<Vec<u8>> {
    let mut bytes = Vec::new();
    File::from(io::stdin().as_fd().try_clone_to_owned()?).read_to_end(&mut bytes)?;
    Ok(bytes)
}

/// The bytes as a text of this name, or the position of the first byte that is none.
pub fn utf8(name: &str, bytes: Vec<u8>) -> Result<Source, Failure> {
    String::from_utf8(bytes).map(|text| Source { name: name.into(), text }).map_err(|error| {
        let (good, bad) = error.as_bytes().split_at(error.utf8_error().valid_up_to());
        let good = String::from_utf8_lossy(good);
        let line = good.matches('\n').count() + 1;
        let column = good.rsplit('\n').next().unwrap_or_default().chars().count() + 1;
        Failure::place(name, line, column, format_args!("the byte 0x{:02x} is not UTF-8", bad[0]))
    })
}
