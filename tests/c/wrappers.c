/* Compares each inline function of naldrev_store.h with the plain call: on two copies of a small store, with all fields, counts and lengths up
   to one past what fits, both have to answer the same and leave the same words, counts and results. */
#include "expect.h"

#include <naldrev_store.h>
#include <string.h>

enum { TERMS = 8, TERM_ROOM = 11, NODE_ROOM = 6, SLOT_WORDS = 10, UNTOUCHED = 77, NUMBERS = NALDREV_BAD_SHEET + 1 };
enum { WORK_WORDS = 4 * NALDREV_TERM_WIDTH + 1 };

#define LENGTH(a) (sizeof(a) / sizeof((a)[0]))

typedef struct world {
    uint32_t terms[TERM_ROOM * NALDREV_TERM_WIDTH];
    uint32_t nodes[NODE_ROOM * NALDREV_NODE_WIDTH];
    uint32_t slots[SLOT_WORDS];
    uint32_t work[WORK_WORDS];
    naldrev_store store;
} world;

static const uint8_t names[] = {'a', 'b', '1', '2'};
static world start, plain, wrapped;

/* The arguments of a plain call. */
#define NAMES names, sizeof names
#define TERMS_READ plain.terms, LENGTH(plain.terms), plain.store.terms_used
#define NODES_READ plain.nodes, LENGTH(plain.nodes), plain.store.nodes_used
#define STORE_READ NAMES, TERMS_READ, NODES_READ
#define STORE_BUILD NAMES, TERMS_READ, plain.nodes, LENGTH(plain.nodes), &plain.store.nodes_used

/* ---- the two copies ---- */

static void place(world *w)
{
    naldrev_store *s = &w->store;
    s->names = names;
    s->names_len = sizeof names;
    s->terms = w->terms;
    s->terms_len = LENGTH(w->terms);
    s->nodes = w->nodes;
    s->nodes_len = LENGTH(w->nodes);
}

/* The terms 'abab' ('ab') ('ab') a 1, two runs of them, and their join. */
static void make_start(void)
{
    static const uint32_t words[TERMS * NALDREV_TERM_WIDTH] = {
        NALDREV_CHAR,       'a', 0, 0, 0, NALDREV_CHAR,    'b', 0, 0, 0, NALDREV_CHAR,    'a', 0, 0, 0,
        NALDREV_CHAR,       'b', 0, 0, 0, NALDREV_BRACKET, 0,   2, 1, 0, NALDREV_BRACKET, 2,   2, 1, 0,
        NALDREV_IDENTIFIER, 0,   1, 0, 0, NALDREV_NUMBER,  2,   1, 0, 0,
    };
    static const uint32_t runs[] = {0, 5, 4, 3};
    naldrev_field left = NALDREV_EMPTY_FIELD, right = NALDREV_EMPTY_FIELD, both = NALDREV_EMPTY_FIELD;
    memset(&start, UNTOUCHED, sizeof start);
    place(&start);
    EXPECT(naldrev_store_init(&start.store) == NALDREV_OK);
    memcpy(start.terms, words, sizeof words);
    start.store.terms_used = TERMS;
    EXPECT(naldrev_store_from_runs(&start.store, runs, 2, &left) == NALDREV_OK);
    EXPECT(naldrev_store_from_runs(&start.store, runs + 2, 2, &right) == NALDREV_OK);
    EXPECT(naldrev_store_join(&start.store, left, right, &both) == NALDREV_OK);
    EXPECT(both.len == left.len + right.len && start.store.nodes_used == 4);
}

static void begin(void)
{
    plain = wrapped = start;
    place(&plain);
    place(&wrapped);
}

static size_t answered[NUMBERS]; /* by number, of one call */

static void same(size_t number, size_t other)
{
    EXPECT(number == other);
    EXPECT(number < NUMBERS);
    answered[number < NUMBERS ? number : 0]++;
    EXPECT(memcmp(plain.terms, wrapped.terms, sizeof plain.terms) == 0);
    EXPECT(memcmp(plain.nodes, wrapped.nodes, sizeof plain.nodes) == 0);
    EXPECT(memcmp(plain.slots, wrapped.slots, sizeof plain.slots) == 0);
    EXPECT(memcmp(plain.work, wrapped.work, sizeof plain.work) == 0);
    EXPECT(plain.store.terms_used == wrapped.store.terms_used && plain.store.nodes_used == wrapped.store.nodes_used);
    EXPECT(wrapped.store.terms == wrapped.terms && wrapped.store.nodes == wrapped.nodes && wrapped.store.names == names);
}

/* A call was tried enough if it was accepted, and refused with each of these numbers; 0 ends them. */
static void tried(const size_t *numbers)
{
    EXPECT(answered[NALDREV_OK] > 0);
    for (; *numbers != 0; numbers++)
        EXPECT(answered[*numbers] > 0);
    memset(answered, 0, sizeof answered);
}

/* ---- calls on fields ---- */

static const naldrev_field untouched = {UNTOUCHED, UNTOUCHED};
static naldrev_field made, made_too; /* by the plain call, by the inline function */
static size_t yes, yes_too;

static void start_call(void)
{
    begin();
    made = made_too = untouched;
    yes = yes_too = UNTOUCHED;
}

static void same_results(size_t number, size_t other)
{
    same(number, other);
    EXPECT(made.node == made_too.node && made.len == made_too.len && yes == yes_too);
}

static void with_two_fields(naldrev_field f, naldrev_field g, int call)
{
    start_call();
    switch (call) {
    case 0:
        same_results(naldrev_join(STORE_BUILD, f.node, f.len, g.node, g.len, &made.node, &made.len),
                     naldrev_store_join(&wrapped.store, f, g, &made_too));
        break;
    case 1:
        same_results(naldrev_starts_with(STORE_READ, f.node, f.len, g.node, g.len, &yes),
                     naldrev_store_starts_with(&wrapped.store, f, g, &yes_too));
        break;
    default:
        same_results(naldrev_equal(STORE_READ, f.node, f.len, g.node, g.len, &yes),
                     naldrev_store_equal(&wrapped.store, f, g, &yes_too));
    }
}

static void with_numbers(naldrev_field f, size_t a, size_t b, int call)
{
    start_call();
    switch (call) {
    case 0:
        same_results(naldrev_take(STORE_READ, f.node, f.len, a, &made.node, &made.len),
                     naldrev_store_take(&wrapped.store, f, a, &made_too));
        break;
    case 1:
        same_results(naldrev_rest(STORE_BUILD, f.node, f.len, a, &made.node, &made.len),
                     naldrev_store_rest(&wrapped.store, f, a, &made_too));
        break;
    default:
        same_results(naldrev_range(STORE_BUILD, f.node, f.len, a, b, &made.node, &made.len),
                     naldrev_store_range(&wrapped.store, f, a, b, &made_too));
    }
}

/* Every field of up to node 4 and 9 terms, some of them none of the store. */
enum { FIELDS = 5 * 10 };

static naldrev_field field_of(size_t i)
{
    naldrev_field f = {i / 10, i % 10};
    return f;
}

static void try_fields(void)
{
    static const size_t joins[] = {NALDREV_BAD_FIELD, 0}, numbers[] = {NALDREV_BAD_FIELD, NALDREV_PAST_END, 0};
    for (int call = 0; call < 3; call++) {
        for (size_t i = 0; i < FIELDS * FIELDS; i++)
            with_two_fields(field_of(i / FIELDS), field_of(i % FIELDS), call);
        tried(joins);
    }
    for (int call = 0; call < 3; call++) {
        for (size_t i = 0; i < FIELDS * 100; i++)
            with_numbers(field_of(i / 100), i % 10, i / 10 % 10, call);
        tried(numbers);
    }
}

static void try_runs(void)
{
    static const size_t numbers[] = {NALDREV_UNEVEN, NALDREV_PAST_END, NALDREV_NODES_FULL, 0}, compared[] = {NALDREV_PAST_END, 0};
    for (uint32_t i = 0; i < 10000; i++) {
        const uint32_t runs[] = {i % 10, i / 10 % 10, i / 100 % 10, i / 1000 % 10, 0, 1, 2, 1};
        for (size_t len = 0; len <= LENGTH(runs); len++) {
            start_call();
            same_results(naldrev_from_runs(STORE_BUILD, runs, len, &made.node, &made.len),
                         naldrev_store_from_runs(&wrapped.store, runs, len, &made_too));
        }
    }
    tried(numbers);
    for (size_t i = 0; i < 10000; i++) {
        naldrev_run first = {i % 10, i / 10 % 10}, second = {i / 100 % 10, i / 1000 % 10};
        start_call();
        same_results(naldrev_compare_runs(NAMES, TERMS_READ, first.start, first.len, second.start, second.len, &yes),
                     naldrev_store_compare_runs(&wrapped.store, first, second, &yes_too));
    }
    tried(compared);
}

static void try_flatten(void)
{
    static const size_t numbers[] = {NALDREV_UNEVEN, NALDREV_BAD_FIELD, NALDREV_WORK_SHORT, 0};
    for (size_t i = 0; i < FIELDS * (WORK_WORDS + 1); i++) {
        naldrev_field f = field_of(i % FIELDS);
        size_t work_len = i / FIELDS, in_work = UNTOUCHED, first = UNTOUCHED, count = UNTOUCHED;
        naldrev_flat flat = {start.work, UNTOUCHED, UNTOUCHED, UNTOUCHED};
        begin();
        size_t number = naldrev_flatten(STORE_READ, f.node, f.len, plain.work, work_len, &in_work, &first, &count);
        same(number, naldrev_store_flatten(&wrapped.store, f, wrapped.work, work_len, &flat));
        EXPECT(flat.in_work == in_work && flat.start == first && flat.count == count);
        if (number != NALDREV_OK)
            EXPECT(flat.words == start.work);
        else
            EXPECT(flat.words == (in_work ? wrapped.work : wrapped.terms + first * NALDREV_TERM_WIDTH));
    }
    tried(numbers);
}

/* ---- matching ---- */

static const uint32_t patterns[][2 * NALDREV_PATTERN_WIDTH] = {
    {NALDREV_E_VARIABLE, 2, 1, 0, NALDREV_E_VARIABLE, 3, 1, 0}, /* e.1 e.2 */
    {NALDREV_CHAR, 'a', 0, 0, NALDREV_E_VARIABLE, 2, 1, 0},     /* 'a' e.1 */
    {NALDREV_S_VARIABLE, 2, 1, 0, NALDREV_CALL, 0, 0, 0},       /* s.1 and a call */
    {NALDREV_OPEN, 0, 0, 0, NALDREV_E_VARIABLE, 2, 1, 0},       /* a bracket that is not closed */
};
static const uint32_t bindings[][NALDREV_BINDING_WIDTH] = {
    {NALDREV_E_VARIABLE, 2, 1, 0, 1},     /* e.1 = 'a' */
    {NALDREV_E_VARIABLE, 3, 1, TERMS, 1}, /* past the terms */
};

static void same_listing(naldrev_field f, const naldrev_request *r, size_t slots_len, int first)
{
    size_t count = UNTOUCHED, entries = UNTOUCHED;
    begin();
    naldrev_slots slots = {wrapped.slots, slots_len, UNTOUCHED, UNTOUCHED};
    size_t number = (first ? naldrev_match_pattern_first : naldrev_match_pattern_with_bindings_candidates)(
        NAMES, plain.terms, LENGTH(plain.terms), &plain.store.terms_used, NODES_READ, f.node, f.len, r->pattern, r->pattern_len,
        r->bindings, r->bindings_len, plain.slots, slots_len, &count, &entries);
    same(number, (first ? naldrev_store_first : naldrev_store_candidates)(&wrapped.store, f, r, &slots));
    if (number == NALDREV_OK || number == NALDREV_MORE_THAN_FIT) {
        EXPECT(slots.count == count && slots.entries == entries);
        for (size_t i = 0; i < count * entries; i++) {
            naldrev_run run = naldrev_slots_run(&slots, i / entries, i % entries);
            EXPECT(run.start == plain.slots[2 * i] && run.len == plain.slots[2 * i + 1]);
        }
    } else {
        EXPECT(slots.count == 0 && slots.entries == 0 && count == UNTOUCHED && entries == UNTOUCHED);
    }
}

static void try_listings(void)
{
    static const size_t numbers[] = {NALDREV_UNEVEN, NALDREV_BAD_FIELD, NALDREV_PAST_END, NALDREV_BAD_PATTERN, NALDREV_NO_MATCH,
                                     NALDREV_CALLS_ARE_NOT_PATTERNS, NALDREV_TERMS_FULL, NALDREV_MORE_THAN_FIT, 0};
    for (int first = 0; first < 2; first++) {
        for (size_t i = 0; i < LENGTH(patterns) * 9 * 3; i++) {
            size_t given = i / 9 % 3; /* no bindings, the first, the second */
            naldrev_request r = {patterns[i / 27], i % 9, bindings[given / 2], (given > 0) * (size_t)NALDREV_BINDING_WIDTH};
            begin();
            EXPECT(naldrev_name_count(NAMES, r.pattern, r.pattern_len, r.bindings, r.bindings_len) ==
                   naldrev_store_name_count(&wrapped.store, &r));
            for (size_t j = 0; j < FIELDS * (SLOT_WORDS + 1); j++)
                same_listing(field_of(j % FIELDS), &r, j / FIELDS, first);
        }
        tried(numbers);
    }
    naldrev_request two = {patterns[0], 2 * NALDREV_PATTERN_WIDTH, bindings[0], NALDREV_BINDING_WIDTH};
    EXPECT(naldrev_store_name_count(&start.store, &two) == 2);
}

/* ---- sheets ---- */

static uint8_t text[NALDREV_SHEET_BYTES + 1], text_too[NALDREV_SHEET_BYTES + 1];

static void same_reading(size_t text_len, size_t terms_len)
{
    size_t terms = 0, name_start = 0, name_count = 0, items = 0, runs = 0;
    begin();
    naldrev_sheet sheet = {names, UNTOUCHED, wrapped.terms, terms_len, wrapped.slots, SLOT_WORDS, wrapped.work, WORK_WORDS};
    size_t number = naldrev_read_sheet(text, text_len, plain.terms, terms_len, plain.slots, SLOT_WORDS, plain.work, WORK_WORDS, &terms,
                                       &name_start, &name_count, &items, &runs);
    same(number, naldrev_sheet_read(&sheet, text, text_len));
    if (number == NALDREV_OK) {
        EXPECT(sheet.names == text + name_start && sheet.names_len == name_count);
        EXPECT(sheet.terms_len == terms * NALDREV_TERM_WIDTH && sheet.pattern_len == items * NALDREV_PATTERN_WIDTH);
        EXPECT(sheet.runs_len == runs * NALDREV_RUN_WIDTH);
    } else {
        EXPECT(sheet.names == names && sheet.names_len == UNTOUCHED && sheet.terms_len == terms_len);
        EXPECT(sheet.pattern_len == SLOT_WORDS && sheet.runs_len == WORK_WORDS);
    }
}

static void try_sheets(void)
{
    static const size_t write_numbers[] = {NALDREV_UNEVEN, NALDREV_WORK_SHORT, 0};
    static const size_t read_numbers[] = {NALDREV_WORK_SHORT, NALDREV_BAD_SHEET, 0};
    uint32_t runs[] = {0, 3, 5, 2}, pattern[2 * NALDREV_PATTERN_WIDTH];
    size_t written = 0, len = 0;
    memcpy(pattern, patterns[0], sizeof pattern);
    for (size_t i = 0; i < 3 * 900; i++) {
        size_t uneven = i / 900, out_len = i % 900, written_too = UNTOUCHED;
        written = UNTOUCHED;
        begin();
        naldrev_sheet sheet = {names, sizeof names, wrapped.terms, TERMS * NALDREV_TERM_WIDTH - uneven % 2, pattern,
                               LENGTH(pattern) - uneven / 2, runs, LENGTH(runs)};
        same(naldrev_write_sheet(plain.terms, sheet.terms_len, names, sizeof names, pattern, sheet.pattern_len, runs, LENGTH(runs), text,
                                 out_len, &written),
             naldrev_sheet_write(&sheet, text_too, out_len, &written_too));
        EXPECT(written == written_too && memcmp(text, text_too, sizeof text) == 0);
        len = written == UNTOUCHED ? len : written;
    }
    tried(write_numbers);
    for (size_t terms_len = 0; terms_len <= TERM_ROOM * NALDREV_TERM_WIDTH; terms_len++)
        for (size_t short_by = 0; short_by < 3; short_by++)
            same_reading(len - short_by, terms_len);
    tried(read_numbers);
}

/* ---- unknowns ---- */

static void try_unknowns(void)
{
    static const struct {
        uint64_t level;
        uint32_t lower, upper;
    } rows[] = {{0, 0, 0}, {5, 5, 0}, {UINT32_MAX, UINT32_MAX, 0}, {4294967301, 5, 1}, {UINT64_MAX, UINT32_MAX, UINT32_MAX}};
    for (size_t i = 0; i < LENGTH(rows); i++) {
        const uint32_t words[] = {NALDREV_UNKNOWN, 2, rows[i].lower, 7, rows[i].upper};
        uint32_t term[] = {UNTOUCHED, UNTOUCHED, UNTOUCHED, UNTOUCHED, UNTOUCHED};
        naldrev_unknown_write(term, 2, rows[i].level, 7);
        EXPECT(LENGTH(words) == NALDREV_TERM_WIDTH && memcmp(term, words, sizeof words) == 0);
        EXPECT(naldrev_unknown_level(term) == rows[i].level);
    }
}

/* ---- null pointers, the initialiser, the texts ---- */

static void try_init(void)
{
    uint32_t node[NALDREV_NODE_WIDTH];
    naldrev_store store = {NULL, 0, NULL, 0, UNTOUCHED, node, 0, UNTOUCHED};
    memset(node, UNTOUCHED, sizeof node);
    for (; store.nodes_len < NALDREV_NODE_WIDTH; store.nodes_len++) {
        EXPECT(naldrev_store_init(&store) == NALDREV_NODES_FULL && store.terms_used == UNTOUCHED && store.nodes_used == UNTOUCHED);
        EXPECT(node[0] != 0);
    }
    EXPECT(naldrev_store_init(&store) == NALDREV_OK && store.terms_used == 0 && store.nodes_used == 1);
    for (size_t i = 0; i < NALDREV_NODE_WIDTH; i++)
        EXPECT(node[i] == 0);
}

static void try_nulls(void)
{
    uint32_t node[NALDREV_NODE_WIDTH], room = 0;
    naldrev_store none = {NULL, 0, NULL, 0, 0, node, NALDREV_NODE_WIDTH, 0};
    EXPECT(naldrev_lent_bytes(NULL) != NULL && naldrev_lent_words(NULL) != NULL && naldrev_lent_room(NULL, &room) == &room);
    EXPECT(naldrev_lent_bytes(names) == names && naldrev_lent_words(node) == node && naldrev_lent_room(node, &room) == node);
    EXPECT(naldrev_store_init(&none) == NALDREV_OK);

    const naldrev_field empty = NALDREV_EMPTY_FIELD;
    const naldrev_run run = {0, 0};
    naldrev_field result = untouched;
    naldrev_flat flat = {NULL, UNTOUCHED, UNTOUCHED, UNTOUCHED};
    EXPECT(naldrev_store_from_runs(&none, NULL, 0, &result) == NALDREV_OK && result.len == 0);
    EXPECT(naldrev_store_join(&none, empty, empty, &result) == NALDREV_OK && result.len == 0);
    EXPECT(naldrev_store_equal(&none, empty, empty, &yes) == NALDREV_OK && yes == 1);
    EXPECT(naldrev_store_compare_runs(&none, run, run, &yes) == NALDREV_OK && yes == 1);
    EXPECT(naldrev_store_flatten(&none, empty, NULL, 0, &flat) == NALDREV_OK && flat.count == 0 && flat.words != NULL);

    const naldrev_request nothing = {NULL, 0, NULL, 0};
    naldrev_slots slots = {NULL, 0, UNTOUCHED, UNTOUCHED};
    EXPECT(naldrev_store_name_count(&none, &nothing) == 0);
    EXPECT(naldrev_store_candidates(&none, empty, &nothing, &slots) == NALDREV_OK && slots.count == 1 && slots.entries == 0);
    EXPECT(naldrev_store_first(&none, empty, &nothing, &slots) == NALDREV_OK && slots.count == 1 && slots.entries == 0);

    naldrev_sheet sheet = {NULL, 0, NULL, 0, NULL, 0, NULL, 0};
    size_t written = 0;
    EXPECT(naldrev_sheet_read(&sheet, NULL, 0) == NALDREV_BAD_SHEET);
    EXPECT(naldrev_sheet_write(&sheet, NULL, 0, &written) == NALDREV_WORK_SHORT);
    EXPECT(naldrev_sheet_write(&sheet, text, sizeof text, &written) == NALDREV_OK);
    EXPECT(naldrev_sheet_read(&sheet, text, written) == NALDREV_OK && sheet.terms_len == 0 && sheet.runs_len == 0);
}

/* The copy that a listing made is given up, and the next one has room. */
static void try_again(void)
{
    const naldrev_field parts = {3, TERM_ROOM - TERMS}; /* of the join */
    const naldrev_request request = {patterns[0], LENGTH(patterns[0]), NULL, 0};
    naldrev_slots slots = {wrapped.slots, SLOT_WORDS, 0, 0};
    begin();
    for (int turn = 0; turn < 3; turn++) {
        EXPECT(naldrev_store_first(&wrapped.store, parts, &request, &slots) == NALDREV_OK && wrapped.store.terms_used == TERM_ROOM);
        EXPECT(naldrev_slots_run(&slots, 0, 1).start == TERMS);
        EXPECT(naldrev_store_first(&wrapped.store, parts, &request, &slots) == NALDREV_TERMS_FULL);
        wrapped.store.terms_used = TERMS;
    }
    EXPECT(memcmp(wrapped.nodes, start.nodes, sizeof start.nodes) == 0);
}

static void try_texts(void)
{
    const char *unknown = naldrev_text((size_t)-1);
    for (size_t i = 0; i < NUMBERS; i++) {
        EXPECT(strlen(naldrev_text(i)) > 0 && strcmp(naldrev_text(i), unknown) != 0);
        for (size_t j = 0; j < i; j++)
            EXPECT(strcmp(naldrev_text(i), naldrev_text(j)) != 0);
    }
    EXPECT(strcmp(naldrev_text(NUMBERS), unknown) == 0 && strcmp(unknown, "unknown number") == 0);
    EXPECT(strcmp(naldrev_text(NALDREV_NO_MATCH), "the pattern does not fit") == 0);
}

int main(void)
{
    make_start();
    try_fields();
    try_runs();
    try_flatten();
    try_listings();
    try_again();
    try_sheets();
    try_unknowns();
    try_init();
    try_nulls();
    try_texts();
    return failures > 0;
}
