//! The examples: the sheets in the repository's `examples`, and the week of this crate.

use std::fs;
use std::path::Path;

#[path = "../examples/week.rs"]
mod week;

#[test]
fn sheets_are_answered_as_written() {
    let folder = Path::new(env!("CARGO_MANIFEST_DIR")).join("../../examples");
    let mut seen = 0;
    for entry in fs::read_dir(&folder).unwrap() {
        let sheet = entry.unwrap().path();
        if sheet.extension().is_some_and(|x| x == "sheet") {
            let answer = fs::read(sheet.with_extension("out")).unwrap();
            assert_eq!(naldrev::run_sheet(&fs::read(&sheet).unwrap()), answer, "{}", sheet.display());
            seen += 1;
        }
    }
    assert!(seen > 5, "{seen} sheets");
}

#[test]
fn the_week_ends_with_its_invoice_line() {
    let mut out = Vec::new();
    week::week(&mut out).unwrap();
    assert_eq!(String::from_utf8(out).unwrap(), include_str!("../examples/week.out"));
}
