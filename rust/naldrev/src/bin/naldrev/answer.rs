//! `naldrev answer`: the answer to a sheet in words.

use std::fmt::{self, Write};

use naldrev::{run_sheet, Bindings, Error, Listing, Refusal, Sheet, Store, RUN_WIDTH, TERM_WIDTH};

use crate::args::{Command, Given};
use crate::input::Inputs;
use crate::output::{count, Binding, Failure, Outcome, Output, Status};

const HELP: &str = "usage: naldrev answer SHEET [ANSWER]

Puts the answer to a sheet in words. ANSWER is what the program sheet printed for it; without it the
command answers the sheet itself. Both are files, or - for standard input.

Exit status: 0 the pattern fits, 1 no match, 2 bad input or usage, or a sheet that is refused, 3 it
fits in more ways than the 16 listed.
";

pub const COMMAND: Command =
    Command { name: "answer", help: HELP, flags: &[], wanted: "SHEET, or SHEET and ANSWER", least: 1, most: 2, act: run };

/// The bytes of a number in an answer's line.
const COLUMN: usize = 10;
/// The numbers of answers that list candidates: all of them, or the first of more.
const ALL: usize = 0;
const MORE: usize = 15;
/// The most candidates that an answer lists.
const MAX_CANDIDATES: usize = 16;
/// Brackets may share their contents, so that a short sheet can spell a text of any length: it is cut after so many bytes.
const LONGEST: usize = 10_000;

fn run(given: &Given, out: &mut Output) -> Outcome {
    let mut inputs = Inputs::default();
    let (name, text) = inputs.bytes(&given.places[0])?;
    let answer = run_sheet(&text);
    if let Some(word) = given.places.get(1) {
        let (name, bytes) = inputs.bytes(word)?;
        if bytes != answer {
            return Err(Failure::new(format!("{name}: this is not the answer to the sheet")));
        }
    }
    if let Some(refusal) = refusal(&answer) {
        out.line(format_args!("refused, {}: {}", refusal.number(), refusal.meaning()))?;
        return Ok(if refusal == Refusal::NoMatch { Status::NoMatch } else { Status::Bad });
    }
    let (store, listing) = listing(&text).map_err(|error| Failure::store(&name, &error))?;
    print(&store, &listing, out)?;
    Ok(if listing.more() { Status::Held } else { Status::Fits })
}

/// The refusal that an answer begins with, if it is one.
fn refusal(answer: &[u8]) -> Option<Refusal> {
    let number = String::from_utf8_lossy(answer.get(..COLUMN)?).trim().parse().ok()?;
    Refusal::from_number(number)
}

/// The candidates of a sheet that is not refused, from a store of its records: the same as its answer has.
fn listing(text: &[u8]) -> Result<(Store, Listing), Error> {
    let sheet = Sheet::read(text)?;
    let terms = sheet.terms.len() / TERM_WIDTH;
    let empty = Store::new();
    let mut store = Store::from_parts(sheet.names, sheet.terms, terms, empty.node_words().to_vec(), empty.nodes_used());
    let runs: Vec<_> = sheet.runs.chunks_exact(RUN_WIDTH).map(|run| store.run(run[0] as usize, run[1] as usize)).collect();
    let field = store.from_runs(&runs)?;
    let pattern = store.pattern_of_words(sheet.pattern);
    let listing = store.candidates(field, &pattern, &Bindings::NONE, MAX_CANDIDATES)?;
    Ok((store, listing))
}

fn print(store: &Store, listing: &Listing, out: &mut Output) -> Result<(), Failure> {
    let (number, more) = if listing.more() { (MORE, ", and there are more") } else { (ALL, "") };
    out.line(format_args!("{number}: {}{more}", count(listing.len(), "candidate")))?;
    for (i, candidate) in listing.iter().enumerate() {
        out.line(format_args!("candidate {}", i + 1))?;
        let terms = candidate.terms(store).map_err(|error| Failure::store("naldrev answer", &error))?;
        for (variable, terms) in terms {
            out.line(format_args!("  {}", Binding { variable, terms: &shortened(terms) }))?;
        }
    }
    Ok(())
}

/// A text that takes no more than [`LONGEST`] bytes.
#[derive(Default)]
struct Shortened(String);

impl Write for Shortened {
    fn write_str(&mut self, text: &str) -> fmt::Result {
        if self.0.len() + text.len() > LONGEST {
            return Err(fmt::Error);
        }
        self.0.push_str(text);
        Ok(())
    }
}

/// Terms in the text form, cut where they are too long.
fn shortened(terms: impl fmt::Display) -> String {
    let mut text = Shortened::default();
    match write!(text, "{terms}") {
        Ok(()) => text.0,
        Err(_) => text.0 + " ...",
    }
}
