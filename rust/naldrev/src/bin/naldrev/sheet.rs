//! `naldrev sheet`: a message and a pattern as a sheet.

use std::ffi::OsStr;

use naldrev::{Expression, Pattern, Sheet, Store, MAX_DEPTH, MAX_RUNS, SHEET_NAMES, SHEET_TERMS, TERM_WIDTH};

use crate::args::{number, Command, Flag, Given};
use crate::input::Inputs;
use crate::output::{count, Failure, Outcome, Output, Status};

const HELP: &str = "usage: naldrev sheet [--pairs TIMES] [--runs START:LENGTH,..] MESSAGE PATTERN

Writes a sheet, which the program sheet answers, from a message and a pattern. MESSAGE and PATTERN
are texts, @FILE for the text of a file, or - for standard input. A sheet keeps nothing of what
stands inside a call <..> or a block {..}.

  --pairs TIMES           puts each term of the message's outermost level into a bracket that holds
                          it twice, so many times over: 'a' becomes ('aa'), then (('aa') ('aa')).
                          Both halves share their contents, so a few lines hold many terms.
  --runs START:LENGTH,..  the runs of the field, in terms of the message's outermost level counted
                          from 0, where the field is not the whole message: 3:1,0:2 is its fourth
                          term, then its first two

Exit status: 0 printed, 2 bad input or usage.
";

pub const COMMAND: Command = Command {
    name: "sheet",
    help: HELP,
    flags: &[Flag::with("--pairs", "TIMES"), Flag::with("--runs", "START:LENGTH,..")],
    wanted: "MESSAGE and PATTERN",
    least: 2,
    most: 2,
    act: run,
};

/// The kind of a bracket in its record: kind, start, length, depth, 0.
const BRACKET: u32 = 3;

fn run(given: &Given, out: &mut Output) -> Outcome {
    let mut inputs = Inputs::default();
    let message = inputs.text("MESSAGE", &given.places[0])?;
    let pattern = inputs.text("PATTERN", &given.places[1])?;
    let terms: Expression = message.parse()?;
    let items: Pattern = pattern.parse()?;
    let times = given.value("--pairs").map_or(Ok(0), times)?;

    let mut store = Store::new();
    let run = store.add(&terms).map_err(|error| Failure::store(&message.name, &error))?;
    let prepared = store.prepare(&items).map_err(|error| Failure::store(&pattern.name, &error))?;
    let mut words = store.term_words()[..store.terms_used() * TERM_WIDTH].to_vec();
    let level = run.len();
    pair(&mut words, level, times)?;
    let start = words.len() / TERM_WIDTH - level;
    let runs = match given.value("--runs") {
        None => vec![(start, level)],
        Some(text) => runs(text, start, level)?,
    };
    within("terms of the message", words.len() / TERM_WIDTH, SHEET_TERMS)?;
    within("bytes of names", store.names().len(), SHEET_NAMES)?;
    within("runs", runs.len(), MAX_RUNS)?;
    let runs = runs.iter().flat_map(|(start, length)| [*start as u32, *length as u32]).collect();
    let sheet = Sheet { terms: words, names: store.names().to_vec(), pattern: prepared.words().to_vec(), runs };
    out.bytes(&sheet.to_text().map_err(|error| Failure::new(format!("naldrev sheet: {error}")))?)?;
    Ok(Status::Fits)
}

fn within(what: &str, number: usize, most: usize) -> Result<(), Failure> {
    if number <= most {
        return Ok(());
    }
    Err(Failure::new(format!("naldrev sheet: {what}: {number}, and a sheet has at most {most}")))
}

fn times(text: &OsStr) -> Result<usize, Failure> {
    match text.to_str().and_then(number) {
        Some(times) if times <= MAX_DEPTH => Ok(times),
        _ => Err(COMMAND.usage(&format!("--pairs takes a number from 0 to {MAX_DEPTH}, found {}", text.to_string_lossy()))),
    }
}

/// Makes each of the last `level` terms a bracket that holds it twice, so many times over.
fn pair(words: &mut Vec<u32>, level: usize, times: usize) -> Result<(), Failure> {
    for _ in 0..times {
        let start = words.len() / TERM_WIDTH - level;
        let outermost = words.split_off(start * TERM_WIDTH);
        for term in outermost.chunks_exact(TERM_WIDTH) {
            words.extend_from_slice(term);
            words.extend_from_slice(term);
        }
        for (i, term) in outermost.chunks_exact(TERM_WIDTH).enumerate() {
            let depth = if term[0] == BRACKET { term[3] } else { 0 };
            if depth as usize == MAX_DEPTH {
                return Err(Failure::new(format!("naldrev sheet: --pairs: brackets would lie over {MAX_DEPTH} deep")));
            }
            let bracket: [u32; TERM_WIDTH] = [BRACKET, (start + 2 * i) as u32, 2, depth + 1, 0];
            words.extend(bracket);
        }
        within("terms of the message", words.len() / TERM_WIDTH, SHEET_TERMS)?;
    }
    Ok(())
}

/// Reads `START:LENGTH,..`, counted in the message's outermost level, as runs of the store.
fn runs(text: &OsStr, start: usize, level: usize) -> Result<Vec<(usize, usize)>, Failure> {
    let text = text.to_string_lossy();
    let parts = text.split(',').filter(|_| !text.is_empty()).map(|part| {
        let Some((first, length)) = part.split_once(':').and_then(|(first, length)| Some((number(first)?, number(length)?))) else {
            return Err(COMMAND.usage(&format!("--runs takes START:LENGTH,.. found {part}")));
        };
        if first.checked_add(length).is_none_or(|end| end > level) {
            return Err(Failure::new(format!(
                "naldrev sheet: --runs: {part} ends past the message's outermost level, which has {}",
                count(level, "term")
            )));
        }
        Ok((start + first, length))
    });
    parts.collect()
}
