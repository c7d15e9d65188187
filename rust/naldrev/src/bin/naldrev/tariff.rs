//! `naldrev tariff`: the price sentence of each message.

use std::collections::BTreeMap;
use std::fmt;

use naldrev::{messages, sentences, Bindings, Error, Expression, Layout, Prepared, Store};

use crate::args::{Command, Flag, Given};
use crate::input::Inputs;
use crate::output::{count, say, Failure, Outcome, Output, Status};
use crate::progress::Progress;

const HELP: &str = "usage: naldrev tariff [--lines | --paragraphs] [--overlaps] [--progress] SENTENCES MESSAGES..

Finds the price sentence of each message. SENTENCES is a file of sentences, written one after the
other as [NAME :] PATTERN [= RIGHT] ; and MESSAGES are files of messages; - is standard input. For
each message a line says which sentence fits. A message that two sentences fit is held back: its
line names the first two.

  --lines        each line is a message
  --paragraphs   messages are separated by blank lines. Without either option, a file that has a
                 blank line between two messages has paragraphs, any other has lines.
  --overlaps     lists the pairs of sentences that fit the same message, with how many messages
                 and the first of them
  --progress     says on standard error which message is being tried, once a second from the third
                 second on; on a terminal this is always done

Exit status: 0 every message has its one sentence, 1 a message has none, 2 bad input or usage, or a
message could not be tried, 3 a message is held back.
";

pub const COMMAND: Command = Command {
    name: "tariff",
    help: HELP,
    flags: &[Flag::alone("--lines"), Flag::alone("--paragraphs"), Flag::alone("--overlaps"), Flag::alone("--progress")],
    wanted: "SENTENCES and at least one file of messages",
    least: 2,
    most: usize::MAX,
    act: run,
};

/// A message with its place.
struct Job {
    file: String,
    line: usize,
    terms: Expression,
}

impl fmt::Display for Job {
    fn fmt(&self, f: &mut fmt::Formatter<'_>) -> fmt::Result {
        write!(f, "{}:{}", self.file, self.line)
    }
}

/// A sentence as it is tried and as it is named.
struct Price {
    label: String,
    pattern: Prepared,
}

fn run(given: &Given, out: &mut Output) -> Outcome {
    let layout = match (given.has("--lines"), given.has("--paragraphs")) {
        (true, true) => return Err(COMMAND.usage("--lines and --paragraphs exclude each other")),
        (true, false) => Some(Layout::Lines),
        (false, true) => Some(Layout::Paragraphs),
        (false, false) => None,
    };
    let mut inputs = Inputs::default();
    let mut store = Store::new();
    let prices = read_prices(given, &mut inputs, &mut store)?;
    let jobs = read_jobs(given, &mut inputs, layout)?;
    let progress = Progress::start(given.has("--progress"));
    let mut week = Week { store, prices, overlaps: given.has("--overlaps").then(BTreeMap::new), counts: Counts::default() };
    for (i, job) in jobs.iter().enumerate() {
        progress.note(|| format!("{job}: message {} of {}", i + 1, jobs.len()));
        week.price(job, out)?;
    }
    drop(progress);
    week.report(&jobs, out)
}

// ---- reading ----

fn read_prices(given: &Given, inputs: &mut Inputs, store: &mut Store) -> Result<Vec<Price>, Failure> {
    let source = inputs.file(&given.places[0])?;
    let sentences = sentences(&source.text).map_err(|error| Failure::text(&source.name, &error))?;
    if sentences.is_empty() {
        return Err(Failure::new(format!("{}: there is no sentence in it", source.name)));
    }
    let prepared = sentences.into_iter().enumerate().map(|(i, sentence)| {
        let label = sentence.name.unwrap_or_else(|| format!("sentence {}", i + 1));
        match store.prepare(&sentence.left) {
            Ok(pattern) => Ok(Price { label, pattern }),
            Err(error) => Err(Failure::store(&format!("{}:{}: {label}", source.name, sentence.line), &error)),
        }
    });
    prepared.collect()
}

fn read_jobs(given: &Given, inputs: &mut Inputs, layout: Option<Layout>) -> Result<Vec<Job>, Failure> {
    let mut jobs = Vec::new();
    for word in &given.places[1..] {
        let source = inputs.file(word)?;
        let messages = messages(&source.text, layout).map_err(|error| Failure::text(&source.name, &error))?;
        jobs.extend(messages.into_iter().map(|message| Job { file: source.name.clone(), line: message.line, terms: message.terms }));
    }
    Ok(jobs)
}

// ---- matching ----

#[derive(Default)]
struct Counts {
    priced: usize,
    held: usize,
    without: usize,
    not_tried: usize,
}

/// How many messages two sentences both fit, and the place of the first.
struct Overlap {
    messages: usize,
    first: String,
}

/// The work on all messages. The store holds the sentences, and one message at a time.
struct Week {
    store: Store,
    prices: Vec<Price>,
    /// The overlaps by the numbers of their sentences, where they are asked for.
    overlaps: Option<BTreeMap<(usize, usize), Overlap>>,
    counts: Counts,
}

impl Week {
    /// Tries the sentences on a message and prints its line.
    fn price(&mut self, job: &Job, out: &mut Output) -> Result<(), Failure> {
        let mark = self.store.mark();
        let fitting = self.fitting(&job.terms);
        self.store.put_back(mark).map_err(|error| Failure::store("naldrev tariff", &error))?;
        let fitting = match fitting {
            Ok(fitting) => fitting,
            Err(error) => {
                self.counts.not_tried += 1;
                say(Failure::store(&job.to_string(), &error));
                return out.line(format_args!("{job}: not tried"));
            }
        };
        self.note_overlaps(&fitting, job);
        match fitting[..] {
            [] => {
                self.counts.without += 1;
                out.line(format_args!("{job}: no sentence fits"))
            }
            [only] => {
                self.counts.priced += 1;
                out.line(format_args!("{job}: {}", self.prices[only].label))
            }
            [first, second, ..] => {
                self.counts.held += 1;
                out.line(format_args!("{job}: held back: {}, {}", self.prices[first].label, self.prices[second].label))
            }
        }
    }

    /// The numbers of the sentences that fit: all for the overlaps, else no more than the two that hold a message back.
    fn fitting(&mut self, terms: &Expression) -> Result<Vec<usize>, Error> {
        let field = self.store.message(terms)?;
        let mut found = Vec::new();
        for (i, price) in self.prices.iter().enumerate() {
            if self.store.first(field, &price.pattern, &Bindings::NONE)?.is_some() {
                found.push(i);
            }
            if found.len() == 2 && self.overlaps.is_none() {
                break;
            }
        }
        Ok(found)
    }

    fn note_overlaps(&mut self, fitting: &[usize], job: &Job) {
        let Some(overlaps) = &mut self.overlaps else { return };
        for (i, left) in fitting.iter().enumerate() {
            for right in &fitting[i + 1..] {
                let overlap = overlaps.entry((*left, *right)).or_insert_with(|| Overlap { messages: 0, first: job.to_string() });
                overlap.messages += 1;
            }
        }
    }

    /// Prints the summary and the overlaps.
    fn report(&self, jobs: &[Job], out: &mut Output) -> Outcome {
        let Counts { priced, held, without, not_tried } = self.counts;
        let not_tried_part = if not_tried == 0 { String::new() } else { format!(", {not_tried} not tried") };
        let messages = count(jobs.len(), "message");
        out.line(format_args!("{messages}: {priced} priced, {held} held back, {without} without a sentence{not_tried_part}"))?;
        if self.overlaps.as_ref().is_some_and(BTreeMap::is_empty) {
            out.line("no overlaps")?;
        }
        for ((left, right), overlap) in self.overlaps.iter().flatten() {
            let [left, right] = [left, right].map(|number| &self.prices[*number].label);
            let messages = count(overlap.messages, "message");
            out.line(format_args!("overlap: {left}, {right}: {messages}, first {}", overlap.first))?;
        }
        Ok(match self.counts {
            Counts { not_tried: 1.., .. } => Status::Bad,
            Counts { held: 1.., .. } => Status::Held,
            Counts { without: 1.., .. } => Status::NoMatch,
            _ => Status::Fits,
        })
    }
}
