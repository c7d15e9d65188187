//! The tables, in Markdown.
use crate::measure::Line;
use crate::timing::growth;

/// A number with a comma before each three digits.
fn grouped(number: usize) -> String {
    let digits = number.to_string();
    let mut text = String::new();
    for (i, digit) in digits.chars().enumerate() {
        if i > 0 && (digits.len() - i).is_multiple_of(3) {
            text.push(',');
        }
        text.push(digit);
    }
    text
}

/// Seconds, as milliseconds.
fn milliseconds(time: f64) -> String {
    format!("{:.3}", 1000.0 * time)
}

fn print_head(head: &[&str]) {
    println!("| {} |", head.join(" | "));
    println!("|---|---|---|{}", "--:|".repeat(head.len() - 3));
}

fn print(cells: &[String]) {
    println!("| {} |", cells.join(" | "));
}

const MEASURED: [&str; 11] =
    ["row", "call", "of", "largest", "ms at an eighth", "a quarter", "a half", "the largest", "checks ms", "call / checks", "growth"];

pub fn print_measured_head() {
    print_head(&MEASURED);
}

/// A line of all sizes. Checks, and the call as a multiple of them, are those at the largest size that was measured; a size left out has a dash.
pub fn print_measured(line: &Line) {
    let row = line.row;
    let mut cells = vec![row.name.into(), line.call.into(), row.of.into(), grouped(row.sizes[3])];
    for i in 0..row.sizes.len() {
        cells.push(line.times.get(i).map_or("-".into(), |times| milliseconds(times.call)));
    }
    let last = line.times.last().expect("the smallest size is always measured");
    cells.extend([milliseconds(last.checks), format!("{:.1}", last.multiple())]);
    let points: Vec<(usize, f64)> = line.times.iter().map(|times| (times.size, times.call)).collect();
    cells.push(growth(&points).map_or("-".into(), |exponent| format!("{exponent:.2}")));
    print(&cells);
}

/// Says how many calls were left out at some size.
pub fn print_left_out(lines: &[Line], limit: f64) {
    let missing = lines.iter().filter(|line| line.times.len() < line.row.sizes.len()).count();
    if missing > 0 {
        println!("\n{missing} of {} calls were left out at larger sizes (-), where they would take over {limit} seconds.", lines.len());
    }
}

const CHECKED: [&str; 9] = ["row", "call", "of", "size", "ms", "checks ms", "call / checks", "bound", "within"];

pub fn print_checked_head() {
    print_head(&CHECKED);
}

/// A line of `--check`. Returns whether the call is within its bound.
pub fn print_checked(line: &Line) -> bool {
    let (row, times) = (line.row, line.times[0]);
    let bound = row.bounds.iter().find(|bound| bound.0 == line.call).map_or(0.0, |bound| bound.1);
    let within = times.multiple() <= bound;
    print(&[
        row.name.into(),
        line.call.into(),
        row.of.into(),
        grouped(times.size),
        milliseconds(times.call),
        milliseconds(times.checks),
        format!("{:.1}", times.multiple()),
        format!("{bound}"),
        if within { "ok" } else { "not" }.into(),
    ]);
    within
}
