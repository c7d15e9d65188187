/* Inputs on which calls need the most stack that is known.

   Two terms are compared within a budget first. Where contents are shared so often that it is spent, all terms are numbered, with tables of some
   170 KB. A listing compares at its last pattern record, below one call for each record, with words for the numbers set aside; comparing two
   fields then reads their places part by part, with a table of 256 KB.

   The row of terms P X Q Y P X Q Y .. has all of it. It is compared with itself two terms further: P with Q, which spends the budget, then X
   with Y, which are deep. P and Q are towers of brackets, each with the one below it in it twice; X and Y end chains of brackets. */
#ifndef TESTS_HOSTILE_H
#define TESTS_HOSTILE_H

#include <naldrev_store.h>
#include <stdlib.h>

#define ROW_STEP 2 /* the row is compared with itself, so many terms further */

/* A store to build in, with room for as many terms as the limits allow. */
typedef struct hostile {
    naldrev_store store;
    uint32_t terms[NALDREV_MAX_TERMS * NALDREV_TERM_WIDTH];
    uint32_t nodes[8 * NALDREV_NODE_WIDTH];
    uint32_t pattern[NALDREV_MAX_PATTERN * NALDREV_PATTERN_WIDTH];
    uint32_t bindings[2 * NALDREV_BINDING_WIDTH];
    naldrev_run row; /* its first run; the second starts ROW_STEP further */
    naldrev_field left, right;
} hostile;

static const uint8_t hostile_names[] = {'1', '2'};

static size_t add_term(naldrev_store *store, uint32_t kind, size_t a, size_t b, size_t c)
{
    uint32_t *at = store->terms + store->terms_used * NALDREV_TERM_WIDTH;
    at[0] = kind;
    at[1] = (uint32_t)a;
    at[2] = (uint32_t)b;
    at[3] = (uint32_t)c;
    at[4] = 0;
    return store->terms_used++;
}

static size_t add_dash(naldrev_store *store) { return add_term(store, NALDREV_CHAR, '-', 0, 0); }

/* A character in so many brackets, one in the other; the outermost is the last of depth + 1 terms. Returns its number. */
static size_t add_chain(naldrev_store *store, size_t depth)
{
    size_t last = add_dash(store);
    for (size_t i = 1; i <= depth; i++)
        last = add_term(store, NALDREV_BRACKET, last, 1, i);
    return last;
}

/* A tower of two brackets a level. Returns the number of the first of the top two. */
static size_t add_tower(naldrev_store *store, size_t levels)
{
    size_t below = add_dash(store);
    add_dash(store);
    for (size_t i = 1; i <= levels; i++) {
        size_t first = add_term(store, NALDREV_BRACKET, below, 2, i);
        add_term(store, NALDREV_BRACKET, below, 2, i);
        below = first;
    }
    return below;
}

/* The row P X Q Y P X Q Y .., of so many terms and ROW_STEP more. X and Y are brackets over the terms x and y, of these depths. */
static naldrev_run add_row(naldrev_store *store, size_t levels, size_t x, size_t x_depth, size_t y, size_t y_depth, size_t len)
{
    size_t p = add_tower(store, levels), q = add_tower(store, levels);
    naldrev_run row = {store->terms_used, len};
    for (size_t i = 0; i < len + ROW_STEP; i++)
        switch (i % 4) {
        case 0: add_term(store, NALDREV_BRACKET, p, 2, levels + 1); break;
        case 1: add_term(store, NALDREV_BRACKET, x, 1, x_depth + 1); break;
        case 2: add_term(store, NALDREV_BRACKET, q, 2, levels + 1); break;
        default: add_term(store, NALDREV_BRACKET, y, 1, y_depth + 1);
        }
    return row;
}

static void add_pattern(uint32_t *pattern, size_t i, uint32_t kind, uint32_t a, uint32_t b)
{
    uint32_t *at = pattern + i * NALDREV_PATTERN_WIDTH;
    at[0] = kind;
    at[1] = a;
    at[2] = b;
    at[3] = 0;
}

static void add_binding(uint32_t *bindings, uint32_t name, naldrev_run run)
{
    uint32_t *at = bindings + name * NALDREV_BINDING_WIDTH;
    at[0] = NALDREV_E_VARIABLE;
    at[1] = name;
    at[2] = 1;
    at[3] = (uint32_t)run.start;
    at[4] = (uint32_t)run.len;
}

/* A whole request for a listing: e.1 bound to the row, e.2 to no terms, and as message the row ROW_STEP further, under the pattern
   e.2 e.2 .. e.2 e.1 of 256 records. It fits in one way. The store has so many terms. Returns a number as the calls do. */
static inline size_t hostile_make(hostile *h, size_t terms)
{
    enum { LEVELS = 20, DEEPEST = NALDREV_MAX_DEPTH - 1 };
    naldrev_store *s = &h->store;
    s->names = hostile_names;
    s->names_len = sizeof hostile_names;
    s->terms = h->terms;
    s->terms_len = sizeof h->terms / sizeof h->terms[0];
    s->nodes = h->nodes;
    s->nodes_len = sizeof h->nodes / sizeof h->nodes[0];
    size_t number = naldrev_store_init(s);
    if (number != NALDREV_OK)
        return number;
    size_t x = add_chain(s, DEEPEST), y = add_chain(s, DEEPEST);
    while (s->terms_used < terms / 3)
        add_dash(s);
    size_t towers = 2 * 2 * (LEVELS + 1);
    h->row = add_row(s, LEVELS, x, DEEPEST, y, DEEPEST, terms - s->terms_used - towers - ROW_STEP);
    for (size_t i = 0; i < NALDREV_MAX_PATTERN; i++)
        add_pattern(h->pattern, i, NALDREV_E_VARIABLE, i + 1 < NALDREV_MAX_PATTERN, 1);
    const naldrev_run none = {0, 0};
    add_binding(h->bindings, 0, h->row);
    add_binding(h->bindings, 1, none);
    const uint32_t first = (uint32_t)h->row.start, len = (uint32_t)h->row.len, runs[] = {first, len, first + ROW_STEP, len};
    number = naldrev_store_from_runs(s, runs, NALDREV_RUN_WIDTH, &h->left);
    if (number == NALDREV_OK)
        number = naldrev_store_from_runs(s, runs + NALDREV_RUN_WIDTH, NALDREV_RUN_WIDTH, &h->right);
    return number;
}

/* The text of a sheet with the row in it: a message of two brackets, which hold the row and the row ROW_STEP further, under the pattern
   e.2 .. e.2 (e.1) (e.1) of 256 records. X and Y are ends of one chain, so that it can be deeper; Y is one bracket less, and the sheet's
   answer is 10. Returns a number as the calls do. */
static inline size_t hostile_sheet(hostile *h, uint8_t *out, size_t out_len, size_t *written)
{
    enum { LEVELS = 11, LEN = 258, DEPTH = 201, VARIABLES = NALDREV_MAX_PATTERN - 6 };
    naldrev_store *s = &h->store;
    s->terms = h->terms;
    s->terms_used = 0;
    size_t x = add_chain(s, DEPTH);
    naldrev_run row = add_row(s, LEVELS, x, DEPTH, x - 1, DEPTH - 1, LEN);
    size_t message = add_term(s, NALDREV_BRACKET, row.start, LEN, DEPTH + 2);
    add_term(s, NALDREV_BRACKET, row.start + ROW_STEP, LEN, DEPTH + 2);
    uint32_t at = 0;
    while (at < VARIABLES)
        add_pattern(h->pattern, at++, NALDREV_E_VARIABLE, 1, 1);
    while (at < NALDREV_MAX_PATTERN) {
        add_pattern(h->pattern, at, NALDREV_OPEN, at + 2, 0);
        add_pattern(h->pattern, at + 1, NALDREV_E_VARIABLE, 0, 1);
        add_pattern(h->pattern, at + 2, NALDREV_CLOSE, at, 0);
        at += 3;
    }
    uint32_t runs[] = {(uint32_t)message, 2};
    naldrev_sheet sheet = {hostile_names, sizeof hostile_names, h->terms, s->terms_used * NALDREV_TERM_WIDTH, h->pattern,
                           sizeof h->pattern / sizeof h->pattern[0], runs, NALDREV_RUN_WIDTH};
    return naldrev_sheet_write(&sheet, out, out_len, written);
}

#endif
