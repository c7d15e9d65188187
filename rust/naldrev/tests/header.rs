//! The C header and this crate say the same: the declarations, the limits, the refusals and the version.

use std::collections::BTreeMap;
use std::fs;
use std::path::Path;

use naldrev::Refusal;

fn file(name: &str) -> String {
    fs::read_to_string(Path::new(env!("CARGO_MANIFEST_DIR")).join(name)).unwrap()
}

fn header() -> String {
    file("../../include/naldrev.h")
}

/// The functions that a text declares, each with its parameters as Rust writes them.
fn declarations(text: &str, start: &str, parameter: impl Fn(&str) -> String) -> BTreeMap<String, Vec<String>> {
    let declaration = |part: &str| {
        let (name, rest) = part.split_once('(').unwrap();
        let (parameters, _) = rest.split_once(')').unwrap();
        let parameters = parameters.split(',').map(|p| p.split_whitespace().collect::<Vec<_>>().join(" "));
        (name.to_string(), parameters.filter(|p| !p.is_empty()).map(|p| parameter(&p)).collect())
    };
    text.split(start).skip(1).map(declaration).collect()
}

/// `const uint8_t *names` as `names: *const u8`.
fn as_rust(parameter: &str) -> String {
    let (kind, name) = parameter.rsplit_once([' ', '*']).unwrap();
    let kind = kind.trim();
    let (constant, element) = kind.strip_prefix("const ").map_or((false, kind), |element| (true, element));
    let element = match element {
        "uint8_t" => "u8",
        "uint32_t" => "u32",
        "size_t" => "usize",
        other => panic!("{other} in {parameter}"),
    };
    match (parameter.contains('*'), constant) {
        (true, true) => format!("{name}: *const {element}"),
        (true, false) => format!("{name}: *mut {element}"),
        (false, _) => format!("{name}: {element}"),
    }
}

#[test]
fn the_same_functions() {
    let c = declarations(&header(), "\nsize_t ", as_rust);
    let rust = declarations(&file("src/sys.rs"), "pub fn ", str::to_string);
    assert_eq!(c.len(), 15);
    assert_eq!(c, rust);
}

/// The macros of the header that stand for a number.
fn numbers() -> BTreeMap<String, usize> {
    let header = header();
    let number = |line: &str| {
        let mut words = line.strip_prefix("#define NALDREV_")?.split_whitespace();
        Some((words.next()?.to_string(), words.next()?.parse().ok()?))
    };
    header.lines().filter_map(number).collect()
}

#[test]
fn the_same_limits() {
    let header = numbers();
    let crates = [
        ("STACK_BYTES", naldrev::STACK_BYTES),
        ("TERM_WIDTH", naldrev::TERM_WIDTH),
        ("NODE_WIDTH", naldrev::NODE_WIDTH),
        ("RUN_WIDTH", naldrev::RUN_WIDTH),
        ("PATTERN_WIDTH", naldrev::PATTERN_WIDTH),
        ("BINDING_WIDTH", naldrev::BINDING_WIDTH),
        ("MAX_NAMES", naldrev::MAX_NAMES),
        ("MAX_TERMS", naldrev::MAX_TERMS),
        ("MAX_NODES", naldrev::MAX_NODES),
        ("MAX_RUNS", naldrev::MAX_RUNS),
        ("MAX_PATTERN", naldrev::MAX_RECORDS),
        ("MAX_ENTRIES", naldrev::MAX_VARIABLES),
        ("MAX_TEXT", naldrev::MAX_TEXT),
        ("MAX_DEPTH", naldrev::MAX_DEPTH),
        ("MAX_NESTING", naldrev::MAX_NESTING),
        ("SHEET_TERMS", naldrev::SHEET_TERMS),
        ("SHEET_NAMES", naldrev::SHEET_NAMES),
    ];
    for (name, value) in crates {
        assert_eq!(header.get(name), Some(&value), "{name}");
    }
}

#[test]
fn the_same_refusals() {
    let text = header();
    let (_, rest) = text.split_once("numbers that a function returns").unwrap();
    let (refusals, _) = rest.split_once("inline").unwrap();
    let mut seen = 0;
    for line in refusals.lines().filter_map(|line| line.strip_prefix("#define NALDREV_")) {
        let mut words = line.split_whitespace();
        let (name, number) = (words.next().unwrap().replace('_', ""), words.next().unwrap().parse().unwrap());
        match Refusal::from_number(number) {
            Some(refusal) => assert!(format!("{refusal:?}").eq_ignore_ascii_case(&name), "{name} is {refusal:?}"),
            None => assert!(["OK", "MORETHANFIT"].contains(&name.as_str()), "{name}"),
        }
        seen += 1;
    }
    assert_eq!(seen, 17);
}

#[test]
fn the_same_version() {
    assert!(header().contains(&format!("\n#define NALDREV_VERSION \"{}\"\n", env!("CARGO_PKG_VERSION"))));
}
