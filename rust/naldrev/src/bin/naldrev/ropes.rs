//! `naldrev join` and `naldrev cut`: messages put together and taken apart.

use std::collections::HashSet;

use naldrev::{e, Bindings, Expression, Field, Item, Pattern, Store, Variable, MAX_RECORDS, MAX_VARIABLES, PATTERN_WIDTH};

use crate::args::{Command, Flag, Given};
use crate::input::{Inputs, Source};
use crate::output::{say, Failure, Outcome, Output, Status};
use crate::try_pattern::find_variables;

const JOIN_HELP: &str = "usage: naldrev join A B

Prints the terms of message A, then those of message B, as one message on one line. A and B are
files with one message each, or - for standard input.

Exit status: 0 printed, 2 bad input or usage.
";

const CUT_HELP: &str = "usage: naldrev cut FILE --before PATTERN

Cuts the message of the file before the first place where the pattern fits some of its terms, and
prints the part before that place on one line and the rest on the next. FILE is a file with one
message, or - for standard input. PATTERN is a text, or @FILE for the text of a file.

Exit status: 0 printed, 1 no match, 2 bad input or usage.
";

pub const JOIN: Command = Command { name: "join", help: JOIN_HELP, flags: &[], wanted: "two files", least: 2, most: 2, act: join };

pub const CUT: Command =
    Command { name: "cut", help: CUT_HELP, flags: &[Flag::with("--before", "PATTERN")], wanted: "one file", least: 1, most: 1, act: cut };

/// The message of a file, put into the store.
fn message(store: &mut Store, source: &Source) -> Result<Field, Failure> {
    let terms: Expression = source.parse()?;
    store.message(&terms).map_err(|error| Failure::store(&source.name, &error))
}

fn print(store: &Store, field: Field, out: &mut Output) -> Result<(), Failure> {
    let terms = store.values(field).map_err(|error| Failure::store("naldrev", &error))?;
    out.line(terms)
}

fn join(given: &Given, out: &mut Output) -> Outcome {
    let mut inputs = Inputs::default();
    let [left, right] = [inputs.file(&given.places[0])?, inputs.file(&given.places[1])?];
    let mut store = Store::new();
    let [first, second] = [message(&mut store, &left)?, message(&mut store, &right)?];
    let joined = store.join(first, second).map_err(|error| Failure::store("naldrev join", &error))?;
    print(&store, joined, out)?;
    Ok(Status::Fits)
}

fn cut(given: &Given, out: &mut Output) -> Outcome {
    let Some(before) = given.value("--before") else {
        return Err(CUT.usage("expected --before PATTERN"));
    };
    let mut inputs = Inputs::default();
    let file = inputs.file(&given.places[0])?;
    let pattern = inputs.text("PATTERN", before)?;
    let mut store = Store::new();
    let field = message(&mut store, &file)?;
    let Some(place) = first_place(&mut store, field, &pattern)? else {
        say("no match");
        return Ok(Status::NoMatch);
    };
    let refused = |error| Failure::store("naldrev cut", &error);
    let parts = [store.take(field, place).map_err(refused)?, store.rest(field, place).map_err(refused)?];
    for part in parts {
        print(&store, part, out)?;
    }
    Ok(Status::Fits)
}

/// How many terms stand before the first place where the pattern fits: the length of the e-variable before it in the first candidate.
fn first_place(store: &mut Store, field: Field, source: &Source) -> Result<Option<usize>, Failure> {
    let pattern: Pattern = source.parse()?;
    let mut used = Vec::new();
    find_variables(&pattern, &mut used);
    let (before, after) = (unused("before", &used), unused("after", &used));
    let mut around = vec![Item::Variable(before.clone())];
    around.extend(pattern.0);
    around.push(Item::Variable(after));
    let refused = |error| Failure::store(&source.name, &error);
    let prepared = store.prepare(&around).map_err(refused)?;
    let variables = used.iter().collect::<HashSet<_>>().len() + 2;
    if prepared.words().len() / PATTERN_WIDTH > MAX_RECORDS || variables > MAX_VARIABLES {
        return Err(Failure::new(format!(
            "{}: the pattern and an e-variable on each side of it pass the limits of a pattern",
            source.name
        )));
    }
    let first = store.first(field, &prepared, &Bindings::NONE).map_err(refused)?;
    Ok(first.and_then(|candidate| candidate.run(&before.to_string())).map(|run| run.len()))
}

/// An e-variable that is none of these.
fn unused(name: &str, used: &[Variable]) -> Variable {
    let mut free = e(name);
    while used.contains(&free) {
        free.name.push('-');
    }
    free
}
