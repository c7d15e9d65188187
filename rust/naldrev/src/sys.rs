//! The functions of the static library as C declares them. The one place for these declarations: the safe functions of this crate, the differential
//! runs and the benchmark all use them.
//!
//! What each does is said in naldrev.h, which is installed with the library. What its caller owes:
//! - No pointer is null, also where its length is 0; each points to that many elements, aligned.
//! - What is lent for writing overlaps nothing else that the call is lent, and nothing else writes to what is lent while the call runs.
//! - There are [`crate::STACK_BYTES`] of stack.
//!
//! A length is in elements: bytes of names and texts, words of all else. Counts are in records. Each function but `naldrev_name_count` returns 0,
//! 15 (the slots are full, and there is a further candidate) or the number of a [`crate::Refusal`].

extern "C" {
    /// The terms of runs, in order.
    pub fn naldrev_from_runs(
        names: *const u8, names_len: usize, terms: *const u32, terms_len: usize, terms_used: usize, nodes: *mut u32, nodes_len: usize,
        nodes_used: *mut usize, runs: *const u32, runs_len: usize, node: *mut usize, len: *mut usize,
    ) -> usize;
    /// The left's terms, then the right's.
    pub fn naldrev_join(
        names: *const u8, names_len: usize, terms: *const u32, terms_len: usize, terms_used: usize, nodes: *mut u32, nodes_len: usize,
        nodes_used: *mut usize, left_node: usize, left_len: usize, right_node: usize, right_len: usize, node: *mut usize, len: *mut usize,
    ) -> usize;
    /// The first `count` terms of a field.
    pub fn naldrev_take(
        names: *const u8, names_len: usize, terms: *const u32, terms_len: usize, terms_used: usize, nodes: *const u32, nodes_len: usize,
        nodes_used: usize, field_node: usize, field_len: usize, count: usize, node: *mut usize, len: *mut usize,
    ) -> usize;
    /// A field without its first `count` terms.
    pub fn naldrev_rest(
        names: *const u8, names_len: usize, terms: *const u32, terms_len: usize, terms_used: usize, nodes: *mut u32, nodes_len: usize,
        nodes_used: *mut usize, field_node: usize, field_len: usize, count: usize, node: *mut usize, len: *mut usize,
    ) -> usize;
    /// `count` terms of a field after its first `start`.
    pub fn naldrev_range(
        names: *const u8, names_len: usize, terms: *const u32, terms_len: usize, terms_used: usize, nodes: *mut u32, nodes_len: usize,
        nodes_used: *mut usize, field_node: usize, field_len: usize, start: usize, count: usize, node: *mut usize, len: *mut usize,
    ) -> usize;
    /// Whether a field starts with another's terms.
    pub fn naldrev_starts_with(
        names: *const u8, names_len: usize, terms: *const u32, terms_len: usize, terms_used: usize, nodes: *const u32, nodes_len: usize,
        nodes_used: usize, field_node: usize, field_len: usize, front_node: usize, front_len: usize, yes: *mut usize,
    ) -> usize;
    /// Whether two fields hold equal terms.
    pub fn naldrev_equal(
        names: *const u8, names_len: usize, terms: *const u32, terms_len: usize, terms_used: usize, nodes: *const u32, nodes_len: usize,
        nodes_used: usize, left_node: usize, left_len: usize, right_node: usize, right_len: usize, yes: *mut usize,
    ) -> usize;
    /// A field's terms in one run, of the store or of the work buffer.
    pub fn naldrev_flatten(
        names: *const u8, names_len: usize, terms: *const u32, terms_len: usize, terms_used: usize, nodes: *const u32, nodes_len: usize,
        nodes_used: usize, field_node: usize, field_len: usize, work: *mut u32, work_len: usize, in_work: *mut usize, start: *mut usize,
        count: *mut usize,
    ) -> usize;
    /// Whether two runs of the term store hold equal terms.
    pub fn naldrev_compare_runs(
        names: *const u8, names_len: usize, terms: *const u32, terms_len: usize, terms_used: usize, first_start: usize, first_len: usize,
        second_start: usize, second_len: usize, yes: *mut usize,
    ) -> usize;
    /// Lists the candidates of a pattern over a field, from starting bindings.
    pub fn naldrev_match_pattern_with_bindings_candidates(
        names: *const u8, names_len: usize, terms: *mut u32, terms_len: usize, terms_used: *mut usize, nodes: *const u32, nodes_len: usize,
        nodes_used: usize, field_node: usize, field_len: usize, pattern: *const u32, pattern_len: usize, bindings: *const u32,
        bindings_len: usize, slots: *mut u32, slots_len: usize, count: *mut usize, entries: *mut usize,
    ) -> usize;
    /// The first candidate alone.
    pub fn naldrev_match_pattern_first(
        names: *const u8, names_len: usize, terms: *mut u32, terms_len: usize, terms_used: *mut usize, nodes: *const u32, nodes_len: usize,
        nodes_used: usize, field_node: usize, field_len: usize, pattern: *const u32, pattern_len: usize, bindings: *const u32,
        bindings_len: usize, slots: *mut u32, slots_len: usize, count: *mut usize, entries: *mut usize,
    ) -> usize;
    /// The number of names of pattern and bindings together, 0 where they are refused.
    pub fn naldrev_name_count(
        names: *const u8, names_len: usize, pattern: *const u32, pattern_len: usize, bindings: *const u32, bindings_len: usize,
    ) -> usize;
    /// Reads a sheet from its text.
    pub fn naldrev_read_sheet(
        text: *const u8, text_len: usize, terms: *mut u32, terms_len: usize, pattern: *mut u32, pattern_len: usize, runs: *mut u32,
        runs_len: usize, term_count: *mut usize, name_start: *mut usize, name_count: *mut usize, pattern_count: *mut usize,
        run_count: *mut usize,
    ) -> usize;
    /// Writes a sheet's text.
    pub fn naldrev_write_sheet(
        terms: *const u32, terms_len: usize, names: *const u8, names_len: usize, pattern: *const u32, pattern_len: usize,
        runs: *const u32, runs_len: usize, out: *mut u8, out_len: usize, written: *mut usize,
    ) -> usize;
    /// Writes what the program `sheet` prints for a text.
    pub fn naldrev_run_sheet(text: *const u8, text_len: usize, out: *mut u8, out_len: usize, written: *mut usize) -> usize;
}
