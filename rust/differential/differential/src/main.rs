//! Differential runs: the port's calls against the Rust original, over random, exhaustive, extreme and damaged inputs.
mod chains;
mod damage;
mod generate;
mod limits;
mod listing;
mod near;
mod opened;
mod oracle;
mod plain;
mod port;
mod random;
mod reading;
mod recorder;
mod replay;
mod rules;
mod shapes;
mod small;
mod tally;

use random::Random;
use std::process::ExitCode;
use std::time::Instant;
use tally::Tally;

#[global_allocator]
static RECORDER: recorder::Recorder = recorder::Recorder;

const USAGE: &str = "differential [--quick] [--seed N] [--cases N] [--only PART] | differential --write-replay N SEED";

struct Options {
    quick: bool,
    seed: u64,
    /// Random cases; a part takes so many or a share of them.
    cases: Option<usize>,
    only: Option<String>,
    /// Listings to write instead of comparing.
    replay: Option<usize>,
}

fn options() -> Option<Options> {
    let mut options = Options { quick: false, seed: 1, cases: None, only: None, replay: None };
    let mut words = std::env::args().skip(1);
    while let Some(word) = words.next() {
        match word.as_str() {
            "--quick" => options.quick = true,
            "--seed" => options.seed = words.next()?.parse().ok()?,
            "--cases" => options.cases = Some(words.next()?.parse().ok()?),
            "--only" => options.only = Some(words.next().filter(|name| PARTS.iter().any(|part| part.0 == name))?),
            "--write-replay" => {
                options.replay = Some(words.next()?.parse().ok()?);
                options.seed = words.next()?.parse().ok()?;
            }
            _ => return None,
        }
    }
    Some(options)
}

/// A part: random numbers, how many cases, whether the run is a quick one.
type Part = fn(&mut Random, usize, bool) -> Vec<Tally>;

const PARTS: [(&str, Part); 7] = [
    ("listing", |random, cases, _| {
        let [mut building, mut listing, mut first] = ["building", "listing", "first"].map(Tally::new);
        listing::run(random, cases, &mut building, &mut listing, &mut first);
        vec![building, listing, first]
    }),
    ("shapes", |random, cases, _| {
        let mut tally = Tally::new("shapes");
        shapes::made_by_calls(random, cases / 40, &mut tally);
        shapes::any_store(random, cases / 10, &mut tally);
        vec![tally]
    }),
    ("reading", |random, cases, _| {
        let [mut building, mut reading] = ["building", "reading"].map(Tally::new);
        reading::run(random, cases / 10, &mut building, &mut reading);
        vec![building, reading]
    }),
    ("chains", |random, cases, _| {
        let mut tally = Tally::new("chains");
        chains::run(random, cases / 10, &mut tally);
        vec![tally]
    }),
    ("small", |_, _, quick| {
        let mut tally = Tally::new("small");
        if quick {
            small::run(&mut tally, small::RECORDS, 2, 4, 1);
            small::run(&mut tally, small::PIECES, 3, 4, 1);
        } else {
            small::run(&mut tally, small::RECORDS, 3, 5, 1);
            small::run(&mut tally, small::RECORDS, 3, 3, 5);
            small::run(&mut tally, small::PIECES, 4, 4, 2);
        }
        vec![tally]
    }),
    ("limits", |random, _, quick| {
        let mut tally = Tally::new("limits");
        limits::run(random, if quick { 2 } else { 20 }, &mut tally);
        vec![tally]
    }),
    ("damage", |random, cases, _| {
        let mut tally = Tally::new("damage");
        damage::run(random, 2 * cases, &mut tally);
        vec![tally]
    }),
];

/// All parts, or one, each with numbers of its own, so that a part alone has the same cases.
fn run(options: &Options) -> Vec<Tally> {
    let cases = options.cases.unwrap_or(if options.quick { 500_000 } else { 2_000_000 });
    let mut all = Vec::new();
    for (i, (name, part)) in PARTS.iter().enumerate() {
        if options.only.as_ref().is_some_and(|only| only != name) {
            continue;
        }
        let tallies = part(&mut Random::new(options.seed * 100 + i as u64), cases, options.quick);
        tallies.iter().for_each(|tally| println!("{}", tally.line()));
        all.extend(tallies);
    }
    all
}

fn report(tallies: &[Tally], seed: u64) -> ExitCode {
    let calls: u64 = tallies.iter().map(|t| t.calls).sum();
    let candidates: u64 = tallies.iter().map(|t| t.candidates).sum();
    let differences: Vec<&String> = tallies.iter().flat_map(|t| &t.differences).collect();
    println!("seed {seed}: {calls} calls compared, {candidates} candidates, {} differences", differences.len());
    let Some(smallest) = differences.iter().min_by_key(|text| text.len()) else { return ExitCode::SUCCESS };
    println!("the smallest:\n{smallest}");
    ExitCode::FAILURE
}

fn main() -> ExitCode {
    let Some(options) = options() else {
        eprintln!("{USAGE}");
        return ExitCode::from(2);
    };
    if let Some(listings) = options.replay {
        replay::write(options.seed, listings);
        return ExitCode::SUCCESS;
    }
    let started = Instant::now();
    let seed = options.seed;
    // The Rust recurses on ropes.
    let worker = std::thread::Builder::new().stack_size(1 << 30).spawn(move || run(&options)).expect("a thread");
    let tallies = worker.join().expect("the original or the driver panicked");
    let code = report(&tallies, seed);
    println!("{} seconds", started.elapsed().as_secs());
    code
}
