/* The stores of a case of the library's driver: valid, damaged, random, or around the limits. */
#ifndef FUZZ_STORES_H
#define FUZZ_STORES_H

#include "state.h"

static bool same_text(size_t o, size_t n, size_t p, size_t m) { return same_name(draft.names, o, n, p, m); }

/* Numbers are the same without leading zeros; a last digit counts. */
static bool same_number(size_t o, size_t n, size_t p, size_t m)
{
    for (; n > 1 && draft.names[o] == '0'; n--)
        o++;
    for (; m > 1 && draft.names[p] == '0'; m--)
        p++;
    return n == m && memcmp(draft.names + o, draft.names + p, n) == 0;
}

static uint32_t reach_of(size_t node) { return draft.nodes[node * NALDREV_NODE_WIDTH + 5]; }

static bool make_cons(size_t i)
{
    uint32_t *n = draft.nodes + i * NALDREV_NODE_WIDTH;
    if (draft.terms_used == 0)
        return false;
    size_t start = below(draft.terms_used);
    size_t most = draft.terms_used - start;
    size_t len = 1 + below(one_in(8) || most < 4 ? most : 4);
    size_t tail = below(i);
    if (draft.nodes[tail * NALDREV_NODE_WIDTH] == 2)
        tail = 0;
    size_t reach = len + reach_of(tail);
    put(n, 1, start, len, tail);
    n[4] = 1;
    n[5] = (uint32_t)(reach < NALDREV_MAX_LENGTH ? reach : NALDREV_MAX_LENGTH);
    return true;
}

static bool make_concat(size_t i)
{
    uint32_t *n = draft.nodes + i * NALDREV_NODE_WIDTH;
    if (i < 2)
        return false;
    size_t left = 1 + below(i - 1), right = 1 + below(i - 1);
    uint32_t lh = draft.nodes[left * NALDREV_NODE_WIDTH + 4], rh = draft.nodes[right * NALDREV_NODE_WIDTH + 4];
    size_t len = one_in(2) ? reach_of(left) : 1 + below(reach_of(left));
    size_t reach = len + reach_of(right);
    put(n, 2, left, len, right);
    n[4] = 1 + (lh > rh ? lh : rh);
    n[5] = (uint32_t)(reach < NALDREV_MAX_LENGTH ? reach : NALDREV_MAX_LENGTH);
    return true;
}

static void make_nodes(size_t used)
{
    memset(draft.nodes, 0, NALDREV_NODE_WIDTH * sizeof draft.nodes[0]);
    size_t i = 1;
    while (i < used && (one_in(2) ? make_cons(i) || make_concat(i) : make_concat(i) || make_cons(i)))
        i++;
    draft.nodes_used = i;
}

static void make_bindings(size_t count)
{
    size_t made = 0, o, n;
    for (size_t i = 0; i < count; i++) {
        uint32_t *b = draft.bindings + made * NALDREV_BINDING_WIDTH;
        uint32_t kind = (uint32_t)(NALDREV_S_VARIABLE + below(3));
        bool fresh = find_text(kind, &o, &n);
        for (size_t j = 0; fresh && j < made; j++) {
            const uint32_t *c = draft.bindings + j * NALDREV_BINDING_WIDTH;
            fresh = c[0] != kind || !same_text(c[1], c[2], o, n);
        }
        if (!fresh)
            continue;
        size_t start = below(draft.terms_used + 1);
        put(b, kind, o, n, start);
        b[4] = (uint32_t)below(1 + (draft.terms_used - start < 3 ? draft.terms_used - start : 3));
        made++;
    }
    draft.bindings_len = made * NALDREV_BINDING_WIDTH;
}

static void valid_case(void)
{
    bool long_lists = one_in(30);
    make_names(below(long_lists || one_in(10) ? 400 : 24));
    make_terms(below(one_in(10) ? 90 : 14));
    make_nodes(1 + below(one_in(10) ? 40 : 9));
    make_runs(below(one_in(20) ? 66 : 6));
    make_pattern(below(long_lists ? 258 : 9), 4);
    const uint32_t *last = draft.nodes + (draft.nodes_used - 1) * NALDREV_NODE_WIDTH;
    if (last[0] == 1 && one_in(2))
        make_fitting_pattern(last[1], last[2], 3);
    make_bindings(below(long_lists ? 70 : 3));
    size_t extra = one_in(4) ? 0 : below(40);
    random_words(draft.terms + draft.terms_used * NALDREV_TERM_WIDTH, extra * NALDREV_TERM_WIDTH);
    draft.terms_len = (draft.terms_used + extra) * NALDREV_TERM_WIDTH;
    extra = one_in(4) ? 0 : below(20);
    random_words(draft.nodes + draft.nodes_used * NALDREV_NODE_WIDTH, extra * NALDREV_NODE_WIDTH);
    draft.nodes_len = (draft.nodes_used + extra) * NALDREV_NODE_WIDTH;
    draft.slots_len = below(one_in(3) ? 4 : 60);
    draft.work_len = below(30) * NALDREV_TERM_WIDTH;
    random_words(draft.slots, draft.slots_len);
    random_words(draft.work, draft.work_len);
}

static void damage_length(void)
{
    switch (below(9)) {
    case 0: draft.terms_len += below(NALDREV_TERM_WIDTH + 1); break;
    case 1: draft.nodes_len += below(NALDREV_NODE_WIDTH + 1); break;
    case 2: draft.runs_len += below(NALDREV_RUN_WIDTH + 1); break;
    case 3: draft.pattern_len += below(NALDREV_PATTERN_WIDTH + 1); break;
    case 4: draft.bindings_len += below(NALDREV_BINDING_WIDTH + 1); break;
    case 5: draft.work_len += below(NALDREV_TERM_WIDTH + 1); break;
    case 6: draft.terms_used = one_in(2) ? odd() : near(draft.terms_used); break;
    case 7: draft.nodes_used = one_in(2) ? odd() : near(draft.nodes_used); break;
    default: draft.names_len -= below(draft.names_len + 1) / 2;
    }
}

/* How many of the used terms are there: a damaged count may pass its slice. */
static size_t terms_there(void)
{
    size_t most = draft.terms_len / NALDREV_TERM_WIDTH;
    return draft.terms_used < most ? draft.terms_used : most;
}

static void damage(void)
{
    switch (below(8)) {
    case 0: draft.names[below(draft.names_len)] = (uint8_t)next(); break;
    case 1: damage_words(draft.terms, draft.terms_len); break;
    case 2: damage_fifth(terms_there()); break;
    case 3: damage_words(draft.nodes, draft.nodes_len); break;
    case 4: damage_words(draft.runs, draft.runs_len); break;
    case 5: damage_words(draft.pattern, draft.pattern_len); break;
    case 6: damage_words(draft.bindings, draft.bindings_len); break;
    default: damage_length();
    }
}

/* Random words everywhere; the counts mostly fit, so that the words are looked at. */
static void random_case(void)
{
    draft.names_len = below(12);
    for (size_t i = 0; i < draft.names_len; i++)
        draft.names[i] = (uint8_t)(one_in(3) ? next() : 'a' + below(3));
    draft.terms_used = below(6);
    draft.terms_len = (draft.terms_used + below(4)) * NALDREV_TERM_WIDTH;
    draft.nodes_used = below(5);
    draft.nodes_len = (draft.nodes_used + below(4)) * NALDREV_NODE_WIDTH;
    draft.runs_len = below(8) * NALDREV_RUN_WIDTH;
    draft.pattern_len = below(6) * NALDREV_PATTERN_WIDTH;
    draft.bindings_len = below(4) * NALDREV_BINDING_WIDTH;
    draft.slots_len = below(20);
    draft.work_len = below(8) * NALDREV_TERM_WIDTH;
    random_words(draft.terms, draft.terms_len);
    random_words(draft.nodes, draft.nodes_len);
    random_words(draft.runs, draft.runs_len);
    random_words(draft.pattern, draft.pattern_len);
    random_words(draft.bindings, draft.bindings_len);
    random_words(draft.slots, draft.slots_len);
    random_words(draft.work, draft.work_len);
    if (one_in(2))
        memset(draft.nodes, 0, NALDREV_NODE_WIDTH * sizeof draft.nodes[0]);
    if (one_in(4))
        damage_length();
}

/* Stores around their largest sizes: chars and nodes of long runs, a chain of single terms, a tower of joins. */
static void limit_case(void)
{
    valid_case();
    draft.names_len = one_in(2) ? NALDREV_MAX_NAMES - 1 + below(3) : draft.names_len;
    draft.terms_used = NALDREV_MAX_TERMS - 1 + below(3) - (one_in(2) ? below(3000) : 0);
    draft.terms_len = (draft.terms_used + below(3)) * NALDREV_TERM_WIDTH;
    memset(draft.terms, 0, draft.terms_len * sizeof draft.terms[0]);
    bool many = one_in(2);
    draft.nodes_used = many ? NALDREV_MAX_NODES - 1 + below(3) - (one_in(2) ? below(3) : 0) : 4 + below(30);
    size_t shape = below(3);
    size_t most = draft.terms_used < NALDREV_MAX_TERMS ? draft.terms_used : NALDREV_MAX_TERMS;
    memset(draft.nodes, 0, NALDREV_NODE_WIDTH * sizeof draft.nodes[0]);
    for (size_t i = 1; i < draft.nodes_used; i++) {
        uint32_t *n = draft.nodes + i * NALDREV_NODE_WIDTH;
        size_t len = shape == 2 ? most - below(2) : 1;
        bool cons = shape == 0 || i == 1;
        put(n, cons ? 1 : 2, cons ? 0 : i - 1, cons ? len : shape == 2 ? reach_of(i - 1) : 1, cons ? i - 1 : 1);
        size_t reach = n[2] + reach_of(n[3]);
        n[4] = cons ? 1 : n[-2] + 1;
        n[5] = (uint32_t)(reach < NALDREV_MAX_LENGTH ? reach : NALDREV_MAX_LENGTH);
    }
    draft.nodes_len = (draft.nodes_used + below(4)) * NALDREV_NODE_WIDTH;
    make_runs(1 + below(65));
    for (size_t i = 1; i < draft.runs_len && one_in(2); i += 2)
        draft.runs[i] = (uint32_t)(draft.terms_used - draft.runs[i - 1]);
    make_pattern(below(4), 2);
    draft.bindings_len = 0;
}

/* A pattern of 63 to 65 names of two letters, an e-variable at each end: long fields have more candidates than a sheet has slots. */
static void name_many(void)
{
    size_t count = NALDREV_MAX_ENTRIES - 1 + below(3);
    draft.pattern_len = 0;
    for (size_t i = 0; i < count; i++) {
        draft.names[2 * i] = (uint8_t)('a' + i % 26);
        draft.names[2 * i + 1] = (uint8_t)('a' + i / 26);
        add_pattern(i == 0 || i + 1 == count ? NALDREV_E_VARIABLE : NALDREV_T_VARIABLE, 2 * i, 2);
    }
}

/* Records around the limits of a sheet. */
static void sheet_limit_case(void)
{
    valid_case();
    make_names(NALDREV_SHEET_NAMES - 1 + below(3));
    make_pattern(one_in(2) ? below(9) : NALDREV_SHEET_PATTERN - 1 + below(3), 2);
    bool many = one_in(3);
    if (many)
        name_many();
    make_terms(NALDREV_SHEET_TERMS - 1 + below(3));
    draft.terms_len = draft.terms_used * NALDREV_TERM_WIDTH;
    make_runs(many ? 1 : NALDREV_SHEET_RUNS - 1 + below(3));
    if (many || one_in(3)) {
        draft.runs[0] = 0;
        draft.runs[1] = (uint32_t)draft.terms_used;
    }
    draft.bindings_len = 0;
}

#endif
