//! Times the port's calls against those of the Rust original, on the same inputs: for each row the Rust, the port's call as a whole, the
//! checks in it, and what is left, the work. Every call of the port checks all used records before it does anything. What that takes is
//! measured by calls that make the same checks of the same stores and next to nothing else: `take` of a whole field (1 to 4), and for
//! matches `name_count` (pattern, bindings and names). docs/BENCHMARKS.md has the rest.
mod fields;
mod growth;
mod inputs;
mod matching;
#[path = "../../differential/differential/src/plain.rs"]
#[allow(dead_code)]
mod plain;
#[path = "../../differential/differential/src/port.rs"]
#[allow(dead_code)]
mod port;
mod report;
mod ropes;
mod timing;

use report::Report;
use std::process::ExitCode;
use std::time::Duration;
use timing::Budget;

/// Times one row or some like ones; an error where the two sides answer differently.
type Row = fn(&mut Report) -> Result<(), String>;

const ROWS: [(&str, Row); 22] = [
    ("dash", matching::dash_in_one_run),
    ("dash-runs", matching::dash_in_eight_runs),
    ("identifiers", matching::identifiers),
    ("numbers", matching::numbers),
    ("five", matching::five_open),
    ("doubled", matching::doubled),
    ("around", matching::around),
    ("records", matching::records),
    ("twice", matching::twice),
    ("deep", matching::deep),
    ("rope", matching::on_a_rope),
    ("append", fields::append),
    ("prepend", fields::prepend),
    ("rest", fields::rest),
    ("rest-rope", fields::rest_of_rope),
    ("cut", fields::cut),
    ("equal", fields::equal),
    ("starts-with", fields::starts_with),
    ("growth", growth::listing),
    ("check-chars", growth::checks_of_chars),
    ("check-readings", growth::checks_of_readings),
    ("check-nodes", growth::checks_of_nodes),
];

/// The time for each side and the rows asked for, all if none is named.
fn options() -> Option<(Budget, Vec<Row>)> {
    let mut budget = Budget { turn: Duration::from_millis(5), turns: 40, with_drop: true };
    let mut rows = Vec::new();
    for word in std::env::args().skip(1) {
        match word.as_str() {
            "--quick" => budget.turns = 10,
            "--keep" => budget.with_drop = false,
            name => rows.push(ROWS.iter().find(|row| row.0 == name)?.1),
        }
    }
    if rows.is_empty() {
        rows.extend(ROWS.map(|row| row.1));
    }
    Some((budget, rows))
}

fn run(budget: Budget, rows: Vec<Row>) -> Result<(), String> {
    let mut report = Report::new(budget);
    rows.iter().try_for_each(|row| row(&mut report))?;
    report.print_misses();
    Ok(())
}

fn main() -> ExitCode {
    let Some((budget, rows)) = options() else {
        eprintln!("benchmark [--quick] [--keep] [ROW..]; the rows: {}", ROWS.map(|row| row.0).join(" "));
        return ExitCode::from(2);
    };
    // A call that is refused where no row expects it panics, and is a difference too.
    let worker = std::thread::spawn(move || run(budget, rows));
    match worker.join().unwrap_or(Err("a call was refused".into())) {
        Ok(()) => ExitCode::SUCCESS,
        Err(why) => {
            eprintln!("{why}");
            ExitCode::FAILURE
        }
    }
}
