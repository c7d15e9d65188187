//! `naldrev try`: the ways in which a pattern fits a message.

use std::ffi::OsStr;
use std::os::unix::ffi::OsStrExt;

use naldrev::{Bindings, Candidate, Expression, Item, Pattern, Store, UnknownKind, Value, Variable, VariableKind};

use crate::args::{number, Command, Flag, Given};
use crate::input::{utf8, Inputs, Source};
use crate::json;
use crate::output::{say, Binding, Failure, Outcome, Output, Status};

const HELP: &str = "usage: naldrev try [--bind VARIABLE=TERMS].. [--first] [--max N] [--json] MESSAGE PATTERN

Lists the ways in which the pattern fits the message: what each variable of the pattern then
stands for. MESSAGE and PATTERN are texts, @FILE for the text of a file, or - for standard input.

  --bind VARIABLE=TERMS   says what a variable of the pattern stands for from the start, such as
                          --bind 's.point=Harbour-3'; may be given for several variables
  --first                 prints the first way alone, and does not look for others
  --max N                 prints at most N ways, 16 where it is not given
  --json                  prints one object, such as
                          {\"fits\":true,\"more\":false,\"candidates\":[{\"s.point\":\"Harbour-3\"}]}

Exit status: 0 it fits, 1 no match, 2 bad input or usage, 3 it fits in more ways than were printed.
";

pub const COMMAND: Command = Command {
    name: "try",
    help: HELP,
    flags: &[
        Flag { name: "--bind", value: Some("VARIABLE=TERMS"), many: true },
        Flag::alone("--first"),
        Flag::with("--max", "N"),
        Flag::alone("--json"),
    ],
    wanted: "MESSAGE and PATTERN",
    least: 2,
    most: 2,
    act: run,
};

const DEFAULT_MAX: usize = 16;
/// Candidates are held in memory until they are printed.
const LARGEST_MAX: usize = 100_000;

/// How many candidates are asked for.
enum Wanted {
    First,
    Most(usize),
}

/// What was found. `more` is not known where only the first was asked for.
struct Found {
    candidates: Vec<Candidate>,
    more: Option<bool>,
}

fn run(given: &Given, out: &mut Output) -> Outcome {
    let wanted = wanted(given)?;
    let mut inputs = Inputs::default();
    let message = inputs.text("MESSAGE", &given.places[0])?;
    let pattern = inputs.text("PATTERN", &given.places[1])?;
    let terms: Expression = message.parse()?;
    let items: Pattern = pattern.parse()?;
    let mut variables = Vec::new();
    find_variables(&items, &mut variables);
    let binds = given.values("--bind").enumerate().map(|(i, word)| bind(i + 1, word, &variables)).collect::<Result<Vec<_>, _>>()?;

    let mut store = Store::new();
    let field = store.message(&terms).map_err(|error| Failure::store(&message.name, &error))?;
    let prepared = store.prepare(&items).map_err(|error| Failure::store(&pattern.name, &error))?;
    let start = bindings(&mut store, &binds)?;
    let found = match wanted {
        Wanted::First => store.first(field, &prepared, &start).map(|first| Found { candidates: first.into_iter().collect(), more: None }),
        Wanted::Most(most) => store
            .candidates(field, &prepared, &start, most)
            .map(|listing| Found { more: Some(listing.more()), candidates: listing.iter().cloned().collect() }),
    };
    let found = found.map_err(|error| Failure::store(&pattern.name, &error))?;
    if given.has("--json") {
        print_json(&store, &found, out)?;
    } else {
        print(&store, &found, out)?;
    }
    Ok(match (found.candidates.is_empty(), found.more) {
        (true, _) => Status::NoMatch,
        (false, Some(true)) => Status::Held,
        (false, _) => Status::Fits,
    })
}

fn wanted(given: &Given) -> Result<Wanted, Failure> {
    match (given.value("--max"), given.has("--first")) {
        (None, true) => Ok(Wanted::First),
        (None, false) => Ok(Wanted::Most(DEFAULT_MAX)),
        (Some(_), true) => Err(COMMAND.usage("--first and --max exclude each other")),
        (Some(text), false) => match text.to_str().and_then(number) {
            Some(most) if (1..=LARGEST_MAX).contains(&most) => Ok(Wanted::Most(most)),
            _ => {
                let what = format!("--max takes a number from 1 to {LARGEST_MAX}, found {}", text.to_string_lossy());
                Err(COMMAND.usage(&what))
            }
        },
    }
}

// ---- starting bindings ----

/// A starting binding as it was given; `name` is for errors.
struct Bind {
    name: String,
    variable: Variable,
    terms: Expression,
}

/// The variables of a pattern, each as often as it occurs.
pub fn find_variables(items: &[Item], found: &mut Vec<Variable>) {
    for item in items {
        match item {
            Item::Variable(variable) => found.push(variable.clone()),
            Item::Bracket(inside) => find_variables(inside, found),
            _ => {}
        }
    }
}

/// Reads `VARIABLE=TERMS`, whose variable has to be one of the pattern's: a name that is misspelt would otherwise bind nothing.
fn bind(number: usize, word: &OsStr, variables: &[Variable]) -> Result<Bind, Failure> {
    let name = format!("--bind {number}");
    let whole = utf8(&name, word.as_bytes().to_vec())?;
    let Some((left, right)) = whole.text.split_once('=') else {
        let what = format!("expected VARIABLE=TERMS, such as s.point=Harbour-3, found {}", whole.text);
        return Err(Failure::place(&name, 1, 1, what));
    };
    let given: Variable = Source { name: name.clone(), text: left.into() }.parse()?;
    // It is printed as the pattern spells it, so that the keys of JSON are those of the pattern.
    let Some(variable) = variables.iter().find(|known| **known == given).cloned() else {
        return Err(Failure::place(&name, 1, 1, format_args!("the pattern has no variable {given}")));
    };
    // The terms keep their columns, so that an error's position is one of the whole argument.
    let before: String = left.chars().map(|_| ' ').collect();
    let terms: Expression = Source { name: name.clone(), text: format!("{before} {right}") }.parse()?;
    if !takes(variable.kind, &terms) {
        let what = if variable.kind == VariableKind::S { "one symbol" } else { "one term" };
        let found = if terms.is_empty() { "nothing".into() } else { terms.to_string() };
        let column = before.chars().count() + 2;
        return Err(Failure::place(&name, 1, column, format_args!("{variable} stands for {what}, found: {found}")));
    }
    Ok(Bind { name, variable, terms })
}

/// Whether a variable of this kind can stand for the terms.
fn takes(kind: VariableKind, terms: &[Value]) -> bool {
    match (kind, terms) {
        (VariableKind::E, _) => true,
        (VariableKind::T, [Value::Unknown { kind, .. }]) => *kind != UnknownKind::Expression,
        (VariableKind::T, [_]) => true,
        (VariableKind::S, [Value::Unknown { kind, .. }]) => *kind == UnknownKind::Symbol,
        (VariableKind::S, [Value::Bracket(_)]) => false,
        (VariableKind::S, [_]) => true,
        _ => false,
    }
}

fn bindings(store: &mut Store, binds: &[Bind]) -> Result<Bindings, Failure> {
    let mut runs = Vec::new();
    for (i, bind) in binds.iter().enumerate() {
        if binds[..i].iter().any(|earlier| earlier.variable == bind.variable) {
            return Err(Failure::place(&bind.name, 1, 1, format_args!("{} is bound twice", bind.variable)));
        }
        let run = store.add(&bind.terms).map_err(|error| Failure::store(&bind.name, &error))?;
        runs.push((bind.variable.clone(), run));
    }
    store.bindings(&runs).map_err(|error| Failure::store("--bind", &error))
}

// ---- printing ----

/// The variables of a candidate with their terms in the text form.
fn texts<'a>(store: &'a Store, candidate: &'a Candidate) -> Result<Vec<(&'a Variable, String)>, Failure> {
    let terms = candidate.terms(store).map_err(|error| Failure::store("naldrev try", &error))?;
    Ok(terms.map(|(variable, terms)| (variable, terms.to_string())).collect())
}

fn print(store: &Store, found: &Found, out: &mut Output) -> Result<(), Failure> {
    if found.candidates.is_empty() {
        say("no match");
    }
    let several = found.candidates.len() > 1 || found.more == Some(true);
    for (i, candidate) in found.candidates.iter().enumerate() {
        let texts = texts(store, candidate)?;
        if texts.is_empty() {
            out.line("fits")?;
        }
        if several {
            out.line(format_args!("candidate {}", i + 1))?;
        }
        let indent = if several { "  " } else { "" };
        for (variable, terms) in texts {
            out.line(format_args!("{indent}{}", Binding { variable, terms: &terms }))?;
        }
    }
    if found.more == Some(true) {
        let count = found.candidates.len();
        say(format_args!("there are more candidates than the {count} printed (--max N sets how many are)"));
    }
    Ok(())
}

fn print_json(store: &Store, found: &Found, out: &mut Output) -> Result<(), Failure> {
    let mut candidates = Vec::new();
    for candidate in &found.candidates {
        let texts = texts(store, candidate)?;
        candidates.push(json::object(texts.iter().map(|(variable, terms)| (variable.to_string(), terms.as_str()))));
    }
    let more = found.more.map_or("null".into(), |more| more.to_string());
    let fits = !candidates.is_empty();
    out.line(format_args!("{{\"fits\":{fits},\"more\":{more},\"candidates\":{}}}", json::list(&candidates)))
}
