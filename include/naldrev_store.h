/* The calls of naldrev.h with structs, so that each has a handful of arguments. All of it is inline: there is nothing more to link.

   A program sets the slices of a naldrev_store to memory of its own and calls naldrev_store_init. Then it writes terms after the used ones,
   counts them in terms_used, and makes fields of them. docs/C.md and the programs in examples/c show it.

   naldrev.h says what each call answers and writes, in which units, what the caller owes, and what a call needs of stack. Three things are
   more convenient here:
   - A pointer may be null where its length is 0.
   - Where a call is refused, the result that it should have written is left alone, but the counts of naldrev_slots are 0.
   - Fields and runs are passed by value, so a variable may be argument and result of one call. */
#ifndef NALDREV_STORE_H
#define NALDREV_STORE_H

#include "naldrev.h"

#ifdef __cplusplus
extern "C" {
#endif

/* ---- structs ---- */

/* Lent memory with names, terms and nodes. Lengths are in elements, used counts in records. Terms and nodes are only ever added, so that
   fields stay what they are. */
typedef struct naldrev_store {
    const uint8_t *names;
    size_t names_len; /* bytes */
    uint32_t *terms;
    size_t terms_len;  /* words */
    size_t terms_used; /* records */
    uint32_t *nodes;
    size_t nodes_len;  /* words */
    size_t nodes_used; /* records */
} naldrev_store;

/* The first len terms of a node: a message, or a part of one. It belongs to the store that it was made in. */
typedef struct naldrev_field {
    size_t node;
    size_t len; /* terms */
} naldrev_field;

/* The initialiser of a field with no terms, which is one of every store. */
#define NALDREV_EMPTY_FIELD {0, 0}

/* Terms that stand one after another in the term store. */
typedef struct naldrev_run {
    size_t start; /* terms */
    size_t len;   /* terms */
} naldrev_run;

/* A pattern with starting bindings. */
typedef struct naldrev_request {
    const uint32_t *pattern;
    size_t pattern_len; /* words */
    const uint32_t *bindings;
    size_t bindings_len; /* words */
} naldrev_request;

/* Lent words for candidates, and how many a call wrote. */
typedef struct naldrev_slots {
    uint32_t *words;
    size_t words_len;
    size_t count;   /* candidates */
    size_t entries; /* runs of a candidate, one for each name */
} naldrev_slots;

/* Where naldrev_store_flatten left a field's terms. */
typedef struct naldrev_flat {
    const uint32_t *words; /* of the first term, in the store or in work */
    size_t count;          /* terms */
    size_t start;          /* number of the first term in the store; 0 if they were copied */
    size_t in_work;        /* 1 if they were copied to work, else 0 */
} naldrev_flat;

/* The records of a sheet. */
typedef struct naldrev_sheet {
    const uint8_t *names;
    size_t names_len; /* bytes */
    uint32_t *terms;
    size_t terms_len; /* words */
    uint32_t *pattern;
    size_t pattern_len; /* words */
    uint32_t *runs;
    size_t runs_len; /* words */
} naldrev_sheet;

/* ---- lending: the library takes no null pointer ---- */

static inline const uint8_t *naldrev_lent_bytes(const uint8_t *bytes)
{
    static const uint8_t none = 0;
    return bytes != NULL ? bytes : &none;
}

static inline const uint32_t *naldrev_lent_words(const uint32_t *words)
{
    static const uint32_t none = 0;
    return words != NULL ? words : &none;
}

/* For writing; none is a variable of the caller, since what is lent for writing overlaps nothing else. */
static inline uint32_t *naldrev_lent_room(uint32_t *words, uint32_t *none)
{
    return words != NULL ? words : none;
}

/* The parts of a store as the first arguments of a call: read, or with room for more. */
#define NALDREV_NAMES_READ(s) naldrev_lent_bytes((s)->names), (s)->names_len
#define NALDREV_TERMS_READ(s) naldrev_lent_words((s)->terms), (s)->terms_len, (s)->terms_used
#define NALDREV_NODES_READ(s) naldrev_lent_words((s)->nodes), (s)->nodes_len, (s)->nodes_used
#define NALDREV_STORE_READ(s) NALDREV_NAMES_READ(s), NALDREV_TERMS_READ(s), NALDREV_NODES_READ(s)
#define NALDREV_TERMS_ROOM(s, none) naldrev_lent_room((s)->terms, none), (s)->terms_len, &(s)->terms_used
#define NALDREV_NODES_ROOM(s, none) naldrev_lent_room((s)->nodes, none), (s)->nodes_len, &(s)->nodes_used
#define NALDREV_STORE_BUILD(s, none) NALDREV_NAMES_READ(s), NALDREV_TERMS_READ(s), NALDREV_NODES_ROOM(s, none)

/* ---- stores ---- */

/* Empties a store whose slices are set: no terms, and node 0 alone. NALDREV_NODES_FULL, with nothing written, where there is no room for a
   node. */
static inline size_t naldrev_store_init(naldrev_store *store)
{
    size_t i;
    if (store->nodes_len < NALDREV_NODE_WIDTH)
        return NALDREV_NODES_FULL;
    for (i = 0; i < NALDREV_NODE_WIDTH; i++)
        store->nodes[i] = 0;
    store->terms_used = 0;
    store->nodes_used = 1;
    return NALDREV_OK;
}

/* ---- unknowns ---- */

/* Writes the words of an unknown. Kind is 0 for a symbol, 1 for a term, 2 for an expression. */
static inline void naldrev_unknown_write(uint32_t *term, uint32_t kind, uint64_t level, uint32_t index)
{
    term[0] = NALDREV_UNKNOWN;
    term[1] = kind;
    term[2] = (uint32_t)level;
    term[3] = index;
    term[4] = (uint32_t)(level >> 32);
}

/* The level of an unknown, from the two words that hold it. */
static inline uint64_t naldrev_unknown_level(const uint32_t *term)
{
    return (uint64_t)term[4] << 32 | term[2];
}

/* ---- calls that build a field ---- */

/* The terms of runs, in order: two words each, start and length. */
static inline size_t naldrev_store_from_runs(naldrev_store *store, const uint32_t *runs, size_t runs_len, naldrev_field *result)
{
    uint32_t none = 0;
    return naldrev_from_runs(NALDREV_STORE_BUILD(store, &none), naldrev_lent_words(runs), runs_len, &result->node, &result->len);
}

/* The left's terms, then the right's. */
static inline size_t naldrev_store_join(naldrev_store *store, naldrev_field left, naldrev_field right, naldrev_field *result)
{
    uint32_t none = 0;
    return naldrev_join(NALDREV_STORE_BUILD(store, &none), left.node, left.len, right.node, right.len, &result->node, &result->len);
}

/* The first count terms of a field. */
static inline size_t naldrev_store_take(const naldrev_store *store, naldrev_field field, size_t count, naldrev_field *result)
{
    return naldrev_take(NALDREV_STORE_READ(store), field.node, field.len, count, &result->node, &result->len);
}

/* A field without its first count terms. */
static inline size_t naldrev_store_rest(naldrev_store *store, naldrev_field field, size_t count, naldrev_field *result)
{
    uint32_t none = 0;
    return naldrev_rest(NALDREV_STORE_BUILD(store, &none), field.node, field.len, count, &result->node, &result->len);
}

/* count terms of a field after its first start. */
static inline size_t naldrev_store_range(naldrev_store *store, naldrev_field field, size_t start, size_t count, naldrev_field *result)
{
    uint32_t none = 0;
    return naldrev_range(NALDREV_STORE_BUILD(store, &none), field.node, field.len, start, count, &result->node, &result->len);
}

/* ---- calls that read ---- */

/* Whether a field starts with another's terms: *yes is 1 or 0. */
static inline size_t naldrev_store_starts_with(const naldrev_store *store, naldrev_field field, naldrev_field front, size_t *yes)
{
    return naldrev_starts_with(NALDREV_STORE_READ(store), field.node, field.len, front.node, front.len, yes);
}

/* Whether two fields hold equal terms: *yes is 1 or 0. */
static inline size_t naldrev_store_equal(const naldrev_store *store, naldrev_field left, naldrev_field right, size_t *yes)
{
    return naldrev_equal(NALDREV_STORE_READ(store), left.node, left.len, right.node, right.len, yes);
}

/* A field's terms one after another: in the store if they stand so there, else copied to work. */
static inline size_t naldrev_store_flatten(const naldrev_store *store, naldrev_field field, uint32_t *work, size_t work_len,
                                           naldrev_flat *result)
{
    uint32_t none = 0;
    size_t number = naldrev_flatten(NALDREV_STORE_READ(store), field.node, field.len, naldrev_lent_room(work, &none), work_len,
                                    &result->in_work, &result->start, &result->count);
    if (number == NALDREV_OK)
        result->words = naldrev_lent_words(result->in_work ? work : store->terms) + result->start * NALDREV_TERM_WIDTH;
    return number;
}

/* Whether two runs hold equal terms: *yes is 1 or 0. */
static inline size_t naldrev_store_compare_runs(const naldrev_store *store, naldrev_run first, naldrev_run second, size_t *yes)
{
    return naldrev_compare_runs(NALDREV_NAMES_READ(store), NALDREV_TERMS_READ(store), first.start, first.len, second.start, second.len,
                                yes);
}

/* ---- matching ---- */

/* Returns the number of names of a request, not a refusal: a candidate has so many runs. 0 where pattern or bindings would be refused. */
static inline size_t naldrev_store_name_count(const naldrev_store *store, const naldrev_request *request)
{
    return naldrev_name_count(NALDREV_NAMES_READ(store), naldrev_lent_words(request->pattern), request->pattern_len,
                              naldrev_lent_words(request->bindings), request->bindings_len);
}

/* What the next two share. */
static inline size_t naldrev_store_list(naldrev_store *store, naldrev_field field, const naldrev_request *request, naldrev_slots *slots,
                                        int first_alone)
{
    uint32_t none[2] = {0, 0};
    slots->count = 0;
    slots->entries = 0;
    return (first_alone ? naldrev_match_pattern_first : naldrev_match_pattern_with_bindings_candidates)(
        NALDREV_NAMES_READ(store), NALDREV_TERMS_ROOM(store, none), NALDREV_NODES_READ(store), field.node, field.len,
        naldrev_lent_words(request->pattern), request->pattern_len, naldrev_lent_words(request->bindings), request->bindings_len,
        naldrev_lent_room(slots->words, none + 1), slots->words_len, &slots->count, &slots->entries);
}

/* naldrev_match_pattern_with_bindings_candidates: lists the candidates of a request over a field. It may copy the field's terms after the
   used ones, so it writes to the store. So that many listings do not fill it, a program may note terms_used before a listing and set it back
   once it has read the runs: no node leads to the copy. */
static inline size_t naldrev_store_candidates(naldrev_store *store, naldrev_field field, const naldrev_request *request,
                                              naldrev_slots *slots)
{
    return naldrev_store_list(store, field, request, slots, 0);
}

/* naldrev_match_pattern_first: the first candidate alone. Else as naldrev_store_candidates. */
static inline size_t naldrev_store_first(naldrev_store *store, naldrev_field field, const naldrev_request *request, naldrev_slots *slots)
{
    return naldrev_store_list(store, field, request, slots, 1);
}

/* The run of an entry in a candidate, both counted from 0: candidate below slots->count, entry below slots->entries. */
static inline naldrev_run naldrev_slots_run(const naldrev_slots *slots, size_t candidate, size_t entry)
{
    const uint32_t *words = slots->words + (candidate * slots->entries + entry) * NALDREV_RUN_WIDTH;
    naldrev_run run;
    run.start = words[0];
    run.len = words[1];
    return run;
}

/* ---- sheets ---- */

/* Reads a sheet into the slices of a naldrev_sheet. Its lengths become those of what was read, and the names stand in the text. */
static inline size_t naldrev_sheet_read(naldrev_sheet *sheet, const uint8_t *text, size_t text_len)
{
    uint32_t none[3] = {0, 0, 0};
    size_t terms = 0, name_start = 0, names = 0, pattern = 0, runs = 0;
    size_t number = naldrev_read_sheet(naldrev_lent_bytes(text), text_len, naldrev_lent_room(sheet->terms, none), sheet->terms_len,
                                       naldrev_lent_room(sheet->pattern, none + 1), sheet->pattern_len,
                                       naldrev_lent_room(sheet->runs, none + 2), sheet->runs_len, &terms, &name_start, &names, &pattern,
                                       &runs);
    if (number != NALDREV_OK)
        return number;
    sheet->names = text + name_start;
    sheet->names_len = names;
    sheet->terms_len = terms * NALDREV_TERM_WIDTH;
    sheet->pattern_len = pattern * NALDREV_PATTERN_WIDTH;
    sheet->runs_len = runs * NALDREV_RUN_WIDTH;
    return NALDREV_OK;
}

/* Writes a sheet's text to the first *written bytes of out. */
static inline size_t naldrev_sheet_write(const naldrev_sheet *sheet, uint8_t *out, size_t out_len, size_t *written)
{
    uint8_t none = 0;
    return naldrev_write_sheet(naldrev_lent_words(sheet->terms), sheet->terms_len, naldrev_lent_bytes(sheet->names), sheet->names_len,
                               naldrev_lent_words(sheet->pattern), sheet->pattern_len, naldrev_lent_words(sheet->runs), sheet->runs_len,
                               out != NULL ? out : &none, out_len, written);
}

#undef NALDREV_NAMES_READ
#undef NALDREV_TERMS_READ
#undef NALDREV_NODES_READ
#undef NALDREV_STORE_READ
#undef NALDREV_TERMS_ROOM
#undef NALDREV_NODES_ROOM
#undef NALDREV_STORE_BUILD

#ifdef __cplusplus
}
#endif

#endif
