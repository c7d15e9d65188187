/* The constants of naldrev.h against the library: each limit is accepted and one more is refused, each number comes of what the header says,
   and widths and kinds are those of the records. */
#include "expect.h"

#include <naldrev_store.h>
#include <stdlib.h>
#include <string.h>

#define LENGTH(a) (sizeof(a) / sizeof((a)[0]))

/* Room for one record more than each limit. */
static uint8_t names[NALDREV_MAX_NAMES + 1];
static uint32_t terms[(NALDREV_MAX_TERMS + 1) * NALDREV_TERM_WIDTH];
static uint32_t nodes[(NALDREV_MAX_NODES + 1) * NALDREV_NODE_WIDTH];
static uint32_t pattern[(NALDREV_MAX_PATTERN + 1) * NALDREV_PATTERN_WIDTH];
static uint32_t words[2 * NALDREV_MAX_ENTRIES * NALDREV_RUN_WIDTH];
static uint8_t text[NALDREV_SHEET_BYTES + 1], answer[NALDREV_ANSWER_BYTES];
static naldrev_store store;
static const naldrev_field empty = NALDREV_EMPTY_FIELD;
static naldrev_field made;

/* No terms, node 0 alone; names of digits, then letters. */
static void begin(void)
{
    naldrev_store fresh = {names, sizeof names - 1, terms, LENGTH(terms), 0, nodes, LENGTH(nodes), 0};
    memset(names, 'a', sizeof names);
    memset(names, '7', NALDREV_MAX_NAMES / 2);
    memset(terms, 0, sizeof terms);
    memset(pattern, 0, sizeof pattern);
    store = fresh;
    EXPECT(naldrev_store_init(&store) == NALDREV_OK);
}

enum { LETTERS = NALDREV_MAX_NAMES / 2 };

static void add_term(uint32_t kind, uint32_t a, uint32_t b, uint32_t c)
{
    uint32_t *at = terms + store.terms_used++ * NALDREV_TERM_WIDTH;
    at[0] = kind;
    at[1] = a;
    at[2] = b;
    at[3] = c;
    at[4] = 0;
}

/* Gives the term that was added last its fifth word. */
static void set_fifth(uint32_t d) { terms[store.terms_used * NALDREV_TERM_WIDTH - 1] = d; }

static void set_record(size_t i, uint32_t kind, uint32_t a, uint32_t b)
{
    uint32_t *at = pattern + i * NALDREV_PATTERN_WIDTH;
    at[0] = kind;
    at[1] = a;
    at[2] = b;
    at[3] = 0;
}

/* The store is checked by every call on it. */
static size_t checked(void) { return naldrev_store_take(&store, empty, 0, &made); }

static size_t field_of(const uint32_t *runs, size_t count)
{
    return naldrev_store_from_runs(&store, runs, count * NALDREV_RUN_WIDTH, &made);
}

/* Lists the first records of the pattern over a field. */
static size_t listed(naldrev_field field, size_t records)
{
    const naldrev_request request = {pattern, records * NALDREV_PATTERN_WIDTH, NULL, 0};
    naldrev_slots slots = {words, LENGTH(words), 0, 0};
    return naldrev_store_candidates(&store, field, &request, &slots);
}

/* ---- limits ---- */

static void try_store_limits(void)
{
    begin();
    EXPECT(checked() == NALDREV_OK);
    store.names_len++;
    EXPECT(checked() == NALDREV_UNEVEN);

    begin();
    store.terms_used = NALDREV_MAX_TERMS;
    EXPECT(checked() == NALDREV_OK);
    store.terms_used++;
    EXPECT(checked() == NALDREV_UNEVEN);

    begin();
    add_term(NALDREV_CHAR, 'x', 0, 0);
    for (size_t i = 1; i <= NALDREV_MAX_NODES; i++) {
        static const uint32_t one_term[NALDREV_NODE_WIDTH] = {1, 0, 1, 0, 1, 1};
        memcpy(nodes + i * NALDREV_NODE_WIDTH, one_term, sizeof one_term);
    }
    const uint32_t run[] = {0, 1};
    store.nodes_used = NALDREV_MAX_NODES - 1;
    EXPECT(field_of(run, 1) == NALDREV_OK && store.nodes_used == NALDREV_MAX_NODES);
    EXPECT(checked() == NALDREV_OK && field_of(run, 1) == NALDREV_NODES_FULL);
    store.nodes_used++;
    EXPECT(checked() == NALDREV_UNEVEN);
}

static void try_field_limits(void)
{
    static uint32_t runs[(NALDREV_MAX_RUNS + 1) * NALDREV_RUN_WIDTH];
    const uint32_t two[] = {0, NALDREV_MAX_LENGTH, 0, 1};
    begin();
    store.terms_used = NALDREV_MAX_TERMS;
    EXPECT(field_of(runs, NALDREV_MAX_RUNS) == NALDREV_OK && field_of(runs, NALDREV_MAX_RUNS + 1) == NALDREV_UNEVEN);
    EXPECT(field_of(two, 1) == NALDREV_OK && made.len == NALDREV_MAX_LENGTH);
    EXPECT(field_of(two, 2) == NALDREV_TOO_LONG);
}

static void try_term_limits(void)
{
    begin();
    add_term(NALDREV_IDENTIFIER, LETTERS, NALDREV_MAX_TEXT, 0);
    add_term(NALDREV_NUMBER, 0, NALDREV_MAX_TEXT, 0);
    EXPECT(checked() == NALDREV_OK);
    add_term(NALDREV_IDENTIFIER, LETTERS, NALDREV_MAX_TEXT + 1, 0);
    EXPECT(checked() == NALDREV_BAD_TERM);

    begin();
    add_term(NALDREV_CHAR, 'x', 0, 0);
    for (uint32_t depth = 1; depth <= NALDREV_MAX_DEPTH; depth++)
        add_term(NALDREV_BRACKET, depth - 1, 1, depth);
    EXPECT(checked() == NALDREV_OK);
    add_term(NALDREV_BRACKET, NALDREV_MAX_DEPTH, 1, NALDREV_MAX_DEPTH + 1);
    EXPECT(checked() == NALDREV_BAD_TERM);
}

/* So many brackets, one in the other. */
static size_t nested(uint32_t depth)
{
    for (uint32_t i = 0; i < depth; i++) {
        set_record(i, NALDREV_OPEN, 2 * depth - 1 - i, 0);
        set_record(2 * depth - 1 - i, NALDREV_CLOSE, i, 0);
    }
    return listed(empty, 2 * depth);
}

static void try_pattern_limits(void)
{
    begin();
    EXPECT(listed(empty, NALDREV_MAX_PATTERN) == NALDREV_NO_MATCH && listed(empty, NALDREV_MAX_PATTERN + 1) == NALDREV_UNEVEN);
    EXPECT(nested(NALDREV_MAX_NESTING) == NALDREV_NO_MATCH && nested(NALDREV_MAX_NESTING + 1) == NALDREV_BAD_PATTERN);
    set_record(0, NALDREV_E_VARIABLE, 0, NALDREV_MAX_TEXT);
    EXPECT(listed(empty, 1) == NALDREV_OK);
    set_record(0, NALDREV_E_VARIABLE, 0, NALDREV_MAX_TEXT + 1);
    EXPECT(listed(empty, 1) == NALDREV_BAD_PATTERN);

    /* names of 1, 2, 3 and more bytes */
    for (uint32_t i = 0; i <= NALDREV_MAX_ENTRIES; i++)
        set_record(i, NALDREV_E_VARIABLE, 0, i + 1);
    naldrev_request request = {pattern, NALDREV_MAX_ENTRIES * NALDREV_PATTERN_WIDTH, NULL, 0};
    EXPECT(naldrev_store_name_count(&store, &request) == NALDREV_MAX_ENTRIES && listed(empty, NALDREV_MAX_ENTRIES) == NALDREV_OK);
    request.pattern_len += NALDREV_PATTERN_WIDTH;
    EXPECT(naldrev_store_name_count(&store, &request) == 0 && listed(empty, NALDREV_MAX_ENTRIES + 1) == NALDREV_TOO_MANY_NAMES);
}

/* A sheet with so many more records, or bytes of names, than its limits. */
static size_t wrote(size_t more_terms, size_t more_names, size_t more_pattern, size_t more_runs, size_t out_len, size_t *written)
{
    static uint32_t runs[(NALDREV_SHEET_RUNS + 1) * NALDREV_RUN_WIDTH];
    const naldrev_sheet sheet = {names, NALDREV_SHEET_NAMES + more_names,
                                 terms, (NALDREV_SHEET_TERMS + more_terms) * NALDREV_TERM_WIDTH,
                                 pattern, (NALDREV_SHEET_PATTERN + more_pattern) * NALDREV_PATTERN_WIDTH,
                                 runs, (NALDREV_SHEET_RUNS + more_runs) * NALDREV_RUN_WIDTH};
    return naldrev_sheet_write(&sheet, text, out_len, written);
}

static void try_sheet_limits(void)
{
    size_t written = 0;
    begin();
    EXPECT(wrote(0, 0, 0, 0, NALDREV_SHEET_BYTES, &written) == NALDREV_OK && written == NALDREV_SHEET_BYTES);
    EXPECT(wrote(0, 0, 0, 0, NALDREV_SHEET_BYTES - 1, &written) == NALDREV_WORK_SHORT);
    EXPECT(wrote(1, 0, 0, 0, sizeof text, &written) == NALDREV_UNEVEN && wrote(0, 1, 0, 0, sizeof text, &written) == NALDREV_UNEVEN);
    EXPECT(wrote(0, 0, 1, 0, sizeof text, &written) == NALDREV_UNEVEN && wrote(0, 0, 0, 1, sizeof text, &written) == NALDREV_UNEVEN);

    /* 64 names, and a message that they fit in more than 16 ways */
    uint32_t runs[] = {0, 2};
    for (uint32_t i = 0; i < NALDREV_MAX_ENTRIES; i++)
        set_record(i, NALDREV_E_VARIABLE, 0, i + 1);
    const naldrev_sheet sheet = {names, NALDREV_MAX_ENTRIES, terms, 2 * NALDREV_TERM_WIDTH, pattern,
                                 NALDREV_MAX_ENTRIES * NALDREV_PATTERN_WIDTH, runs, LENGTH(runs)};
    size_t len = 0;
    EXPECT(naldrev_sheet_write(&sheet, text, sizeof text, &len) == NALDREV_OK);
    EXPECT(naldrev_run_sheet(text, len, answer, NALDREV_ANSWER_BYTES, &written) == NALDREV_OK && written == NALDREV_ANSWER_BYTES);
    EXPECT(naldrev_run_sheet(text, len, answer, NALDREV_ANSWER_BYTES - 1, &written) == NALDREV_WORK_SHORT);
    EXPECT(memcmp(answer, "        15        16        64         0\n", 41) == 0);
}

/* The number that the answer to a sheet starts with. */
static size_t answer_to(const uint8_t *sheet, size_t len)
{
    char number[11] = "";
    size_t written = 0;
    EXPECT(naldrev_run_sheet(sheet, len, answer, sizeof answer, &written) == NALDREV_OK && written >= sizeof number);
    memcpy(number, answer, sizeof number - 1);
    return (size_t)strtoul(number, NULL, 10);
}

/* The largest sheet is read as it was written, and answered: its 256 characters fit no empty message. Its terms are unknowns of different
   levels. */
static void try_largest_sheet(void)
{
    static uint32_t own_terms[NALDREV_SHEET_TERMS * NALDREV_TERM_WIDTH], own_pattern[NALDREV_SHEET_PATTERN * NALDREV_PATTERN_WIDTH];
    static uint32_t own_runs[NALDREV_SHEET_RUNS * NALDREV_RUN_WIDTH];
    naldrev_sheet sheet = {NULL, 0, own_terms, LENGTH(own_terms), own_pattern, LENGTH(own_pattern), own_runs, LENGTH(own_runs)};
    size_t len = 0;
    begin();
    for (uint32_t i = 0; i < NALDREV_SHEET_TERMS; i++) {
        add_term(NALDREV_UNKNOWN, i % 3, i, 0);
        set_fifth(UINT32_MAX - i);
    }
    EXPECT(wrote(0, 0, 0, 0, NALDREV_SHEET_BYTES, &len) == NALDREV_OK && len == NALDREV_SHEET_BYTES);
    EXPECT(naldrev_sheet_read(&sheet, text, len) == NALDREV_OK && sheet.names_len == NALDREV_SHEET_NAMES &&
           memcmp(sheet.names, names, NALDREV_SHEET_NAMES) == 0);
    EXPECT(sheet.terms_len == LENGTH(own_terms) && sheet.pattern_len == LENGTH(own_pattern) && sheet.runs_len == LENGTH(own_runs));
    EXPECT(memcmp(own_terms, terms, sizeof own_terms) == 0 && memcmp(own_pattern, pattern, sizeof own_pattern) == 0);
    EXPECT(answer_to(text, len) == NALDREV_NO_MATCH);
    text[len] = '\n';
    EXPECT(answer_to(text, len + 1) == NALDREV_BAD_SHEET);
}

/* The columns of a sheet's lines. */
#define COUNTS(terms, records) "         " terms "         0         " records "         0"
#define CHAR_X "         0       120         0         0"
#define ZERO "         0"
#define ONE "         1"
#define ANSWER_TO(sheet) answer_to((const uint8_t *)(sheet), sizeof(sheet) - 1)

/* The lines of terms have five columns, the others four. */
static void try_sheet_columns(void)
{
    EXPECT(ANSWER_TO(COUNTS("1", "0") "\n" CHAR_X ZERO "\n\n") == NALDREV_OK);
    EXPECT(ANSWER_TO(COUNTS("1", "0") "\n" CHAR_X "\n\n") == NALDREV_BAD_SHEET);
    EXPECT(ANSWER_TO(COUNTS("1", "0") "\n" CHAR_X ZERO ZERO "\n\n") == NALDREV_BAD_SHEET);
    EXPECT(ANSWER_TO(COUNTS("1", "0") ZERO "\n" CHAR_X ZERO "\n\n") == NALDREV_BAD_SHEET);
    EXPECT(ANSWER_TO(COUNTS("1", "0") "\n" CHAR_X ONE "\n\n") == NALDREV_BAD_TERM);
    EXPECT(ANSWER_TO(COUNTS("0", "1") "\n\n" CHAR_X "\n") == NALDREV_NO_MATCH);
    EXPECT(ANSWER_TO(COUNTS("0", "1") "\n\n" CHAR_X ZERO "\n") == NALDREV_BAD_SHEET);
}

/* ---- numbers that no limit brings ---- */

static void try_numbers(void)
{
    const uint32_t apart[] = {0, 1, 2, 1}, past[] = {2, 2};
    uint32_t bindings[2 * NALDREV_BINDING_WIDTH] = {NALDREV_E_VARIABLE, 0, 1, 0, 1, NALDREV_E_VARIABLE, 1, 1, 0, 1}, room = 0;
    naldrev_request request = {pattern, 0, bindings, LENGTH(bindings)};
    naldrev_slots slots = {words, LENGTH(words), 0, 0};
    naldrev_flat flat;
    naldrev_sheet sheet = {NULL, 0, NULL, 0, NULL, 0, NULL, 0};
    begin();
    store.terms_used = 3;
    EXPECT(field_of(past, 1) == NALDREV_PAST_END && field_of(apart, 2) == NALDREV_OK && made.len == 2);
    store.terms_len = 3 * NALDREV_TERM_WIDTH;
    EXPECT(listed(made, 0) == NALDREV_TERMS_FULL);
    EXPECT(naldrev_store_flatten(&store, made, &room, 0, &flat) == NALDREV_WORK_SHORT);
    /* e.7 twice */
    EXPECT(naldrev_store_candidates(&store, empty, &request, &slots) == NALDREV_BAD_BINDING);
    request.bindings_len = NALDREV_BINDING_WIDTH;
    EXPECT(naldrev_store_candidates(&store, empty, &request, &slots) == NALDREV_OK && slots.entries == 1);
    slots.words_len = 1;
    EXPECT(naldrev_store_candidates(&store, empty, &request, &slots) == NALDREV_MORE_THAN_FIT && slots.count == 0);
    set_record(0, NALDREV_CALL, 0, 0);
    EXPECT(listed(empty, 1) == NALDREV_CALLS_ARE_NOT_PATTERNS);
    set_record(0, NALDREV_BLOCK, 0, 0);
    EXPECT(listed(empty, 1) == NALDREV_CALLS_ARE_NOT_PATTERNS);
    EXPECT(naldrev_sheet_read(&sheet, text, 1) == NALDREV_BAD_SHEET);
    made.len = 3;
    EXPECT(naldrev_store_take(&store, made, 0, &made) == NALDREV_BAD_FIELD);
    store.nodes_used = 0;
    EXPECT(checked() == NALDREV_BAD_NODE);
}

/* ---- widths and kinds ---- */

static void try_widths(void)
{
    begin();
    for (size_t len = 0; len < 61; len++) {
        const naldrev_request patterns = {pattern, len, NULL, 0}, bindings = {NULL, 0, pattern, len};
        naldrev_slots slots = {words, LENGTH(words), 0, 0};
        naldrev_flat flat;
        store.terms_len = len;
        EXPECT((checked() == NALDREV_UNEVEN) == (len % NALDREV_TERM_WIDTH != 0));
        store.terms_len = LENGTH(terms);
        store.nodes_len = len;
        EXPECT((checked() == NALDREV_UNEVEN) == (len % NALDREV_NODE_WIDTH != 0 || len == 0));
        store.nodes_len = LENGTH(nodes);
        EXPECT((naldrev_store_from_runs(&store, words, len, &made) == NALDREV_UNEVEN) == (len % NALDREV_RUN_WIDTH != 0));
        EXPECT((naldrev_store_candidates(&store, empty, &patterns, &slots) == NALDREV_UNEVEN) == (len % NALDREV_PATTERN_WIDTH != 0));
        EXPECT((naldrev_store_candidates(&store, empty, &bindings, &slots) == NALDREV_UNEVEN) == (len % NALDREV_BINDING_WIDTH != 0));
        EXPECT((naldrev_store_flatten(&store, empty, words, len, &flat) == NALDREV_UNEVEN) == (len % NALDREV_TERM_WIDTH != 0));
    }
}

/* Which of the seven terms each variable takes, and that a literal and a bracket take their own alone. */
static void try_kinds(void)
{
    static const struct {
        uint32_t kind, a, b;
        const char *takes;
    } rows[] = {
        {NALDREV_S_VARIABLE, 0, 1, "1110100"}, {NALDREV_T_VARIABLE, 0, 1, "1111110"},       {NALDREV_E_VARIABLE, 0, 1, "1111111"},
        {NALDREV_CHAR, 'x', 0, "1000000"},     {NALDREV_IDENTIFIER, LETTERS, 2, "0100000"}, {NALDREV_NUMBER, 0, 2, "0010000"},
        {NALDREV_OPEN, 1, 0, "0001000"},
    };
    begin();
    add_term(NALDREV_CHAR, 'x', 0, 0);
    add_term(NALDREV_IDENTIFIER, LETTERS, 2, 0);
    add_term(NALDREV_NUMBER, 0, 2, 0);
    add_term(NALDREV_BRACKET, 0, 0, 1);
    for (uint32_t i = 0; i < 3; i++)
        add_term(NALDREV_UNKNOWN, i, 5, 6);
    set_record(1, NALDREV_CLOSE, 0, 0);
    for (size_t row = 0; row < LENGTH(rows); row++)
        for (uint32_t i = 0; i < 7; i++) {
            const uint32_t run[] = {i, 1};
            set_record(0, rows[row].kind, rows[row].a, rows[row].b);
            EXPECT(field_of(run, 1) == NALDREV_OK);
            EXPECT(listed(made, rows[row].kind == NALDREV_OPEN ? 2 : 1) == (rows[row].takes[i] == '1' ? NALDREV_OK : NALDREV_NO_MATCH));
        }
    add_term(NALDREV_UNKNOWN, 3, 0, 0);
    EXPECT(checked() == NALDREV_BAD_TERM);
}

/* 7 fits 007 and is shown as received, 77 does not fit it; a fits A. */
static void try_comparing(void)
{
    const uint32_t number[] = {0, 1}, letter[] = {1, 1};
    begin();
    names[0] = names[1] = '0';
    names[LETTERS] = 'A';
    add_term(NALDREV_NUMBER, 0, 3, 0);
    add_term(NALDREV_IDENTIFIER, LETTERS, 1, 0);
    EXPECT(field_of(number, 1) == NALDREV_OK);
    set_record(0, NALDREV_NUMBER, 2, 1);
    EXPECT(listed(made, 1) == NALDREV_OK);
    set_record(0, NALDREV_NUMBER, 2, 2);
    EXPECT(listed(made, 1) == NALDREV_NO_MATCH);
    set_record(0, NALDREV_S_VARIABLE, 0, 1);
    EXPECT(listed(made, 1) == NALDREV_OK && words[0] == 0 && terms[1] == 0 && terms[2] == 3);
    EXPECT(field_of(letter, 1) == NALDREV_OK);
    set_record(0, NALDREV_IDENTIFIER, LETTERS + 1, 1);
    EXPECT(listed(made, 1) == NALDREV_OK);
}

/* The fifth word is free in an unknown, and has to be 0 in every other kind. */
static void try_fifth_word(void)
{
    static const uint32_t others[][4] = {
        {NALDREV_CHAR, 'x', 0, 0}, {NALDREV_IDENTIFIER, LETTERS, 2, 0}, {NALDREV_NUMBER, 0, 2, 0}, {NALDREV_BRACKET, 0, 0, 1}};
    static const uint32_t fifths[] = {1, 1u << 31, UINT32_MAX};
    for (size_t i = 0; i < LENGTH(others) * LENGTH(fifths); i++) {
        const uint32_t *t = others[i / LENGTH(fifths)];
        begin();
        add_term(t[0], t[1], t[2], t[3]);
        EXPECT(checked() == NALDREV_OK);
        set_fifth(fifths[i % LENGTH(fifths)]);
        EXPECT(checked() == NALDREV_BAD_TERM);
    }
    begin();
    add_term(NALDREV_UNKNOWN, 0, UINT32_MAX, UINT32_MAX);
    set_fifth(UINT32_MAX);
    EXPECT(checked() == NALDREV_OK);
}

static void add_unknown(uint64_t level) { naldrev_unknown_write(terms + store.terms_used++ * NALDREV_TERM_WIDTH, 2, level, 6); }

/* Both halves of a level count, in every call that compares. */
static void try_levels(void)
{
    const uint64_t high = (uint64_t)1 << 32, levels[] = {5 * high, 5, high + 5, high + 5, high + 6, UINT64_MAX, UINT32_MAX, 0};
    begin();
    for (size_t i = 0; i < LENGTH(levels); i++)
        add_unknown(levels[i]);
    set_record(0, NALDREV_E_VARIABLE, 0, 1);
    set_record(1, NALDREV_E_VARIABLE, 0, 1);
    for (uint32_t i = 0; i + 1 < LENGTH(levels); i++) {
        const naldrev_run left = {i, 1}, right = {i + 1, 1};
        const uint32_t runs[] = {i, 2};
        const size_t expected = levels[i] == levels[i + 1];
        naldrev_field first = empty, second = empty;
        size_t compared = 2, equal = 2, starts = 2;
        EXPECT(field_of(runs, 1) == NALDREV_OK && naldrev_store_take(&store, made, 1, &first) == NALDREV_OK);
        EXPECT(naldrev_store_rest(&store, made, 1, &second) == NALDREV_OK);
        EXPECT(naldrev_store_compare_runs(&store, left, right, &compared) == NALDREV_OK && compared == expected);
        EXPECT(naldrev_store_equal(&store, first, second, &equal) == NALDREV_OK && equal == expected);
        EXPECT(naldrev_store_starts_with(&store, first, second, &starts) == NALDREV_OK && starts == expected);
        EXPECT(listed(made, 2) == (expected ? NALDREV_OK : NALDREV_NO_MATCH));
    }
}

/* A copy has all five words, in the work buffer and behind the used terms. */
static void try_copies(void)
{
    const uint32_t apart[] = {0, 1, 2, 1};
    uint32_t work[2 * NALDREV_TERM_WIDTH], copy[2 * NALDREV_TERM_WIDTH];
    naldrev_flat flat = {NULL, 0, 0, 0};
    begin();
    for (uint64_t i = 0; i < 3; i++)
        add_unknown(UINT64_MAX - i);
    memcpy(copy, terms, sizeof copy / 2);
    memcpy(copy + NALDREV_TERM_WIDTH, terms + 2 * NALDREV_TERM_WIDTH, sizeof copy / 2);
    EXPECT(field_of(apart, 2) == NALDREV_OK);
    EXPECT(naldrev_store_flatten(&store, made, work, LENGTH(work), &flat) == NALDREV_OK && flat.in_work == 1);
    EXPECT(memcmp(work, copy, sizeof copy) == 0);
    set_record(0, NALDREV_E_VARIABLE, 0, 1);
    EXPECT(listed(made, 1) == NALDREV_OK && store.terms_used == 5 && memcmp(terms + 3 * NALDREV_TERM_WIDTH, copy, sizeof copy) == 0);
}

int main(void)
{
    try_store_limits();
    try_field_limits();
    try_term_limits();
    try_pattern_limits();
    try_sheet_limits();
    try_largest_sheet();
    try_sheet_columns();
    try_numbers();
    try_widths();
    try_kinds();
    try_comparing();
    try_fifth_word();
    try_levels();
    try_copies();
    return failures > 0;
}
