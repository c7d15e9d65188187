//! Times calls on hostile stores: stores within the rules on which a call can take the square of its input, or longer. Each call's answer is
//! compared with what it has to be.
//!
//! Every call first checks all used records, in linear time. So what a call takes is told as a multiple of these checks, measured alone on the
//! same store: a number that hardly depends on the machine.
mod brackets;
mod floods;
mod measure;
mod names;
#[rustfmt::skip]
mod raw;
mod report;
mod request;
mod ropes;
mod store;
mod table;
mod timing;
mod windows;

use std::process::ExitCode;
use table::{ROWS, Row};

struct Options {
    check: bool,
    /// Seconds that a call may take.
    limit: f64,
    rows: Vec<&'static Row>,
}

/// None for bad usage.
fn options() -> Option<Options> {
    let mut options = Options { check: false, limit: f64::INFINITY, rows: Vec::new() };
    let mut words = std::env::args().skip(1);
    while let Some(word) = words.next() {
        match word.as_str() {
            "--check" => options.check = true,
            "--limit" => options.limit = words.next()?.parse().ok()?,
            name => options.rows.push(ROWS.iter().find(|row| row.name == name)?),
        }
    }
    if options.rows.is_empty() {
        options.rows.extend(&ROWS);
    }
    Some(options)
}

fn measure_all(options: &Options) -> Result<(), String> {
    report::print_measured_head();
    let mut lines = Vec::new();
    for row in &options.rows {
        let measured = measure::every_size(row, options.limit)?;
        measured.iter().for_each(report::print_measured);
        lines.extend(measured);
    }
    report::print_left_out(&lines, options.limit);
    Ok(())
}

fn check_all(options: &Options) -> Result<(), String> {
    report::print_checked_head();
    let (mut within, mut all) = (0, 0);
    for row in &options.rows {
        for line in measure::one_size(row)? {
            within += usize::from(report::print_checked(&line));
            all += 1;
        }
    }
    println!("\n{within} of {all} calls are within their bounds.");
    if within == all { Ok(()) } else { Err(format!("{} calls take longer than their bounds allow", all - within)) }
}

fn main() -> ExitCode {
    let Some(options) = options() else {
        let rows: Vec<&str> = ROWS.iter().map(|row| row.name).collect();
        eprintln!("--hostile [--check] [--limit SECONDS] [ROW..]; the rows: {}", rows.join(" "));
        return ExitCode::from(2);
    };
    // A call that builds and is refused panics, and is a wrong answer too.
    let worker = std::thread::spawn(move || if options.check { check_all(&options) } else { measure_all(&options) });
    match worker.join().unwrap_or(Err("a call that builds a store is refused".into())) {
        Ok(()) => ExitCode::SUCCESS,
        Err(why) => {
            eprintln!("{why}");
            ExitCode::FAILURE
        }
    }
}
