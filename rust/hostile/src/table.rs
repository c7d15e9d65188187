//! The rows: what each builds, at which sizes it is measured, and what its calls may take.
use crate::request::Case;
use crate::{brackets, floods, names, ropes, windows};

pub struct Row {
    pub name: &'static str,
    /// What the size counts.
    pub of: &'static str,
    pub make: fn(usize) -> Case,
    /// Each is double the one before, but for rounding.
    pub sizes: [usize; 4],
    /// The size at which `--check` tries it.
    pub tried: usize,
    /// For each call, in the order of the requests: how many times the checks of the store it may take at that size: some three to ten times what it
    /// takes, and less than a library takes that compares pairs anew, reads a rope from the top for every run, or keeps to one digest. `windows-deep`,
    /// `windows-idle` and `permutations` are for other ways of numbering terms than by digests.
    pub bounds: &'static [(&'static str, f64)],
}

const fn up_to(largest: usize) -> [usize; 4] {
    [largest / 8, largest / 4, largest / 2, largest]
}

/// Of records in a store.
const FULL: [usize; 4] = up_to(65_536);

const fn row(
    name: &'static str,
    of: &'static str,
    make: fn(usize) -> Case,
    sizes: [usize; 4],
    tried: usize,
    bounds: &'static [(&'static str, f64)],
) -> Row {
    Row { name, of, make, sizes, tried, bounds }
}

#[rustfmt::skip]
pub static ROWS: [Row; 29] = [
    row("spine", "nodes", ropes::spine, FULL, 65_536, &[("flatten", 120.0), ("listing", 120.0), ("first", 120.0)]),
    row("clamped", "nodes", ropes::clamped, FULL, 8192, &[("flatten", 100.0), ("listing", 100.0), ("first", 100.0)]),
    row("clamped-twice", "nodes", ropes::clamped_twice, FULL, 8192, &[("equal", 200.0), ("starts_with", 200.0)]),
    row("clamped-apart", "nodes", ropes::clamped_apart, FULL, 8192, &[("equal", 250.0), ("starts_with", 250.0)]),
    row("clamped-calls", "nodes", ropes::clamped_by_calls, FULL, 8192, &[("flatten", 100.0), ("equal", 150.0)]),
    row("joins", "nodes", ropes::joined, FULL, 16_384, &[("equal", 100.0)]),
    row("shared", "terms", brackets::shared_contents, FULL, 65_536, &[("compare_runs", 60.0), ("equal", 60.0), ("listing", 60.0)]),
    row("shared-names", "terms", brackets::shared_identifiers, up_to(16_000), 4000, &[("compare_runs", 80.0)]),
    row("shared-numbers", "terms", brackets::shared_numbers, up_to(16_000), 4000, &[("compare_runs", 100.0)]),
    row("shared-16", "terms", brackets::shared_sixteen, FULL, 8192, &[("equal", 120.0)]),
    row("shared-given", "terms", brackets::shared_bound, up_to(4000), 1000, &[("listing", 150.0)]),
    row("ladder-given", "terms", brackets::ladder_bound, FULL, 4096, &[("listing", 400.0)]),
    row("ladders-given", "terms", brackets::ladders_bound, FULL, 32_768, &[("listing", 200.0)]),
    row("names", "bindings", names::bindings, up_to(51_541), 2000, &[("listing", 60.0)]),
    row("windows-same", "terms", windows::same, FULL, 65_536, &[("compare_runs", 80.0)]),
    row("windows-differ", "terms", windows::all_differ, FULL, 65_536, &[("compare_runs", 80.0)]),
    row("windows-defect", "terms", windows::defect, FULL, 65_536, &[("compare_runs", 80.0)]),
    row("windows-morse", "terms", windows::thue_morse, FULL, 65_536, &[("compare_runs", 60.0)]),
    row("windows-rotated", "terms", windows::rotated, FULL, 65_536, &[("compare_runs", 80.0)]),
    row("windows-unknowns", "terms", windows::unknowns, FULL, 65_536, &[("compare_runs", 80.0)]),
    row("windows-names", "terms", windows::identifiers, up_to(16_000), 8000, &[("compare_runs", 60.0)]),
    row("windows-beginnings", "terms", windows::beginnings, FULL, 65_536, &[("compare_runs", 90.0)]),
    row("windows-levels", "terms", windows::levels, FULL, 65_536, &[("compare_runs", 18.0)]),
    row("windows-given", "terms", windows::bound, FULL, 65_536, &[("listing", 90.0)]),
    row("windows-deep", "terms", windows::all_levels, FULL, 65_536, &[("compare_runs", 20.0)]),
    row("windows-idle", "terms", windows::idle, FULL, 65_536, &[("listing", 20.0), ("compare_runs", 20.0)]),
    row("flood", "terms", floods::unknowns, FULL, 65_536, &[("compare_runs", 90.0)]),
    row("flood-names", "bindings", floods::bindings, up_to(32_000), 16_000, &[("listing", 60.0)]),
    row("permutations", "terms", windows::permutations, FULL, 65_536, &[("compare_runs", 20.0)]),
];
