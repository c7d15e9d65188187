//! The command `naldrev`: tries patterns on messages, prices messages by sentences, joins and cuts them, writes and answers sheets. Its manual
//! is docs/COMMAND.md in the repository.
#![forbid(unsafe_code)]

use std::ffi::OsString;
use std::process::ExitCode;

use args::Command;
use output::{say, Failure, Outcome, Output, Status};

mod answer;
mod args;
mod input;
mod json;
mod output;
mod progress;
mod ropes;
mod sheet;
mod tariff;
mod try_pattern;

const HELP: &str = "usage: naldrev COMMAND ARGUMENT..

Matches Refal-5 patterns against messages.

  try MESSAGE PATTERN            lists the ways in which a pattern fits a message
  tariff SENTENCES MESSAGES..    finds the price sentence of each message
  join A B                       joins two messages
  cut FILE --before PATTERN      cuts a message before the first place where a pattern fits
  sheet MESSAGE PATTERN          writes a sheet, the form that the program sheet reads
  answer SHEET [ANSWER]          puts the answer to a sheet in words

naldrev COMMAND --help tells more about each; naldrev --version prints the version.

Exit status: 0 it fits, 1 no match, 2 bad input or usage, 3 held back, or more candidates than asked for.
";

const COMMANDS: [&Command; 6] = [&try_pattern::COMMAND, &tariff::COMMAND, &ropes::JOIN, &ropes::CUT, &sheet::COMMAND, &answer::COMMAND];

fn run(words: &[OsString], out: &mut Output) -> Outcome {
    let Some((first, rest)) = words.split_first() else {
        return Err(Failure::usage("naldrev", "expected a command", HELP));
    };
    if args::is_help(first) {
        return out.answer(HELP);
    }
    if args::is_version(first) {
        return out.answer(args::VERSION);
    }
    match COMMANDS.iter().find(|command| first == command.name) {
        Some(command) => command.run(rest, out),
        None => {
            let what = format!("expected a command, found {}", first.to_string_lossy());
            Err(Failure::usage("naldrev", &what, HELP))
        }
    }
}

fn main() -> ExitCode {
    let words: Vec<OsString> = std::env::args_os().skip(1).collect();
    let outcome = Output::new().and_then(|mut out| {
        let status = run(&words, &mut out)?;
        out.finish()?;
        Ok(status)
    });
    let status = outcome.unwrap_or_else(|failure| {
        say(&failure);
        Status::Bad
    });
    ExitCode::from(status as u8)
}
