//! The table of a run, in Markdown, and the rows that fall short of the goal.
use crate::timing::{Budget, Times};

pub struct Line {
    pub row: String,
    pub call: &'static str,
    /// Candidates of a match, or calls of a list.
    pub count: usize,
    /// Used terms and nodes at the end.
    pub terms: usize,
    pub nodes: usize,
    pub times: Times,
}

pub struct Report {
    pub budget: Budget,
    lines: Vec<Line>,
}

/// Work below this part of the whole is less than the variation between measurements: the table then has a bound instead.
const MEASURABLE: f64 = 1.0 / 500.0;

/// Rust / work that a listing has to reach. Any other row has to reach 1.
const LISTING_GOAL: f64 = 5.0;

/// Rust / port has to reach 1 where each store has at most so many records.
const SMALL_STORE: usize = 4096;

const HEAD: [&str; 11] =
    ["row", "call", "candidates or calls", "terms", "nodes", "Rust ns", "port ns", "checks ns", "work ns", "Rust / work", "Rust / port"];

/// A number with a comma before each three digits.
pub fn grouped(number: usize) -> String {
    let digits = number.to_string();
    let mut text = String::new();
    for (i, digit) in digits.chars().enumerate() {
        if i > 0 && (digits.len() - i).is_multiple_of(3) {
            text.push(',');
        }
        text.push(digit);
    }
    text
}

fn rounded(time: f64) -> String {
    grouped(time.round() as usize)
}

impl Line {
    /// The port's work alone, and whether that is but a bound of it.
    fn work(&self) -> (f64, bool) {
        let (work, bound) = (self.times.whole - self.times.checks, self.times.whole * MEASURABLE);
        if work < bound { (bound, true) } else { (work, false) }
    }

    fn cells(&self) -> [String; HEAD.len()] {
        let Times { rust, whole, checks } = self.times;
        let (work, bound) = self.work();
        let ratio = |time: f64| rust.map_or(String::new(), |rust| format!("{:.2}", rust / time));
        [
            self.row.clone(),
            self.call.into(),
            grouped(self.count),
            grouped(self.terms),
            grouped(self.nodes),
            rust.map_or(String::new(), rounded),
            rounded(whole),
            rounded(checks),
            if rust.is_none() { String::new() } else { format!("{}{}", if bound { "< " } else { "" }, rounded(work)) },
            format!("{}{}", if bound && rust.is_some() { "> " } else { "" }, ratio(work)),
            ratio(whole),
        ]
    }

    /// What the row misses of the goal.
    fn misses(&self) -> Vec<String> {
        let Some(rust) = self.times.rust else { return Vec::new() };
        let (by_work, by_whole) = (rust / self.work().0, rust / self.times.whole);
        let goal = if self.call == "listing" { LISTING_GOAL } else { 1.0 };
        let mut missed = Vec::new();
        if by_work < goal {
            missed.push(format!("Rust / work is {by_work:.2}, the goal {goal}"));
        }
        if by_whole < 1.0 && self.terms.max(self.nodes) <= SMALL_STORE {
            missed.push(format!("Rust / port is {by_whole:.2}, the goal 1"));
        }
        missed
    }
}

impl Report {
    pub fn new(budget: Budget) -> Self {
        println!("| {} |", HEAD.join(" | "));
        println!("|---|---|{}", "--:|".repeat(HEAD.len() - 2));
        Self { budget, lines: Vec::new() }
    }

    pub fn add(&mut self, line: Line) {
        println!("| {} |", line.cells().join(" | "));
        self.lines.push(line);
    }

    /// Prints the rows that fall short of the goal, of those that have a time of the Rust.
    pub fn print_misses(&self) {
        let compared = self.lines.iter().filter(|line| line.times.rust.is_some()).count();
        let missing: Vec<_> = self.lines.iter().map(|line| (line, line.misses())).filter(|(_, missed)| !missed.is_empty()).collect();
        println!("\n{} of {compared} compared rows fall short of the goal:\n", missing.len());
        for (line, missed) in missing {
            println!("- {}, {}: {}", line.row, line.call, missed.join("; "));
        }
    }
}
