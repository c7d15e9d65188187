//! Rows of growing stores: a listing, and the checks alone.
use crate::inputs::{Draft, Sides};
use crate::matching::Case;
use crate::port::{self, Call};
use crate::report::{Line, Report, grouped};
use crate::timing;

const SIZES: [usize; 4] = [1000, 4000, 16_000, 65_536];

/// One run, which needs no settled copy; nine chars follow the dash.
pub fn listing(report: &mut Report) -> Result<(), String> {
    for size in SIZES {
        let message = format!("'{}-{}'", "a".repeat(size - 10), "a".repeat(9));
        let mut case = Case::new(&message, "e.1 '-' e.2", 1);
        case.time_one(report, &format!("`e.1 '-' e.2`, one dash near the end of {} terms", grouped(size)), "listing", false)?;
    }
    Ok(())
}

fn check(report: &mut Report, row: &str, sides: &Sides, whole: Call) {
    let store = &sides.store;
    let times = timing::measure_checks(&report.budget, || assert_eq!(port::read(store, &whole, &mut [], &mut [0; 2]), 0, "take"));
    report.add(Line { row: row.into(), call: "checks", count: 1, terms: store.terms_used, nodes: store.nodes_used, times });
}

pub fn checks_of_chars(report: &mut Report) -> Result<(), String> {
    for size in SIZES {
        let mut draft = Draft::default();
        let run = draft.run(&format!("'{}'", "a".repeat(size)));
        let mut sides = draft.sides(0, 1);
        let field = sides.field(&[run]).field;
        check(report, &format!("{} chars", grouped(size)), &sides, Call::Take(field, field.len));
    }
    Ok(())
}

/// Four terms on the top level and two in a bracket for each reading.
pub fn checks_of_readings(report: &mut Report) -> Result<(), String> {
    for size in SIZES {
        let message: String = (0..size / 6).map(|i| format!("Meter {} (kWh {}) '-' ", 1000 + i % 1000, i % 7)).collect();
        let mut draft = Draft::default();
        let run = draft.run(&message);
        let mut sides = draft.sides(0, 1);
        let field = sides.field(&[run]).field;
        check(report, &format!("{} terms of readings", grouped(sides.store.terms_used)), &sides, Call::Take(field, field.len));
    }
    Ok(())
}

/// The nodes of one term joined before itself again and again; written here, since that many calls would take long.
pub fn checks_of_nodes(report: &mut Report) -> Result<(), String> {
    for size in SIZES {
        let mut draft = Draft::default();
        let run = draft.run("'a'");
        let mut sides = draft.sides(0, size - 1);
        let field = sides.field(&[run]).field;
        for node in 2..size as u32 {
            let record = [2, 1, 1, node - 1, node, node];
            sides.store.nodes[6 * node as usize..6 * node as usize + 6].copy_from_slice(&record);
        }
        sides.store.nodes_used = size;
        check(report, &format!("{} nodes", grouped(size)), &sides, Call::Take(field, field.len));
    }
    Ok(())
}
