/* What the tries of all exports share: terms and fields read again, the rule of terms, arguments, and what an answer may be and may have
   written. */
#ifndef FUZZ_ANSWERS_H
#define FUZZ_ANSWERS_H

#include "lent.h"
#include "stores.h"

/* ---- terms and fields read again ---- */

static const uint32_t *term(size_t i) { return terms + i * NALDREV_TERM_WIDTH; }

static bool same_words(const uint32_t *t, const uint32_t *u) { return memcmp(t, u, NALDREV_TERM_WIDTH * sizeof *t) == 0; }

static bool equal_runs(size_t s, size_t n, size_t t, size_t m);

static bool equal_terms(size_t i, size_t j)
{
    const uint32_t *t = term(i), *u = term(j);
    if (t[0] != u[0])
        return false;
    if (t[0] == NALDREV_IDENTIFIER)
        return same_text(t[1], t[2], u[1], u[2]);
    if (t[0] == NALDREV_NUMBER)
        return same_number(t[1], t[2], u[1], u[2]);
    if (t[0] == NALDREV_BRACKET)
        return equal_runs(t[1], t[2], u[1], u[2]);
    return same_words(t, u);
}

static bool equal_runs(size_t s, size_t n, size_t t, size_t m)
{
    for (size_t i = 0; n == m && i < n; i++)
        if (!equal_terms(s + i, t + i))
            return false;
    return n == m;
}

/* The term numbers of a field, left to right; the store is valid. */
struct List {
    size_t len;
    uint32_t at[MOST];
};

static struct List first_list, second_list, third_list;

static void spell_field(struct List *list, size_t node, size_t len)
{
    /* Each entry: go on at a node, until the list has so many terms. */
    static size_t wait_node[MOST], wait_end[MOST];
    size_t waiting = 0, end = len;
    list->len = 0;
    for (;;) {
        const uint32_t *n = nodes + node * NALDREV_NODE_WIDTH;
        if (list->len < end && n[0] == 2) {
            wait_node[waiting] = n[3];
            wait_end[waiting++] = end;
            if (list->len + n[2] < end)
                end = list->len + n[2];
            node = n[1];
        } else if (list->len < end && n[0] == 1) {
            for (size_t i = 0; i < n[2] && list->len < end; i++)
                list->at[list->len++] = n[1] + (uint32_t)i;
            node = n[3];
        } else if (waiting > 0) {
            node = wait_node[--waiting];
            end = wait_end[waiting];
        } else {
            break;
        }
    }
    expect(list->len == len, "a field has fewer terms than its length");
}

static bool starts_equal(const struct List *a, const struct List *b, size_t len)
{
    for (size_t i = 0; i < len; i++)
        if (!equal_terms(a->at[i], b->at[i]))
            return false;
    return true;
}

/* The new field has the terms from first on. */
static void expect_terms(const struct List *list, size_t first, size_t count, size_t node, size_t len)
{
    expect(len == count, "a new field has another length");
    spell_field(&third_list, node, len);
    expect(memcmp(third_list.at, list->at + first, count * sizeof list->at[0]) == 0, "a new field has other terms");
}

/* ---- the rule of terms ---- */

static bool scalar_ok(uint32_t c) { return c < 0xD800 || (c > 0xDFFF && c <= 0x10FFFF); }

/* The text of an identifier or a number. */
static bool text_ok(const uint32_t *t)
{
    size_t o = t[1], n = t[2];
    if (n < 1 || n > NALDREV_MAX_TEXT || o + n > draft.names_len || (t[0] == NALDREV_IDENTIFIER && !is_letter(draft.names[o])))
        return false;
    for (size_t i = o; i < o + n; i++) {
        uint8_t c = draft.names[i];
        if (!is_digit(c) && (t[0] == NALDREV_NUMBER || (!is_letter(c) && c != '-' && c != '_')))
            return false;
    }
    return true;
}

/* The contents of term i, a bracket, and its depth. */
static bool bracket_ok(size_t i, const uint32_t *t)
{
    uint32_t deepest = 0;
    if ((size_t)t[1] + t[2] > i)
        return false;
    for (size_t j = t[1]; j < (size_t)t[1] + t[2]; j++) {
        const uint32_t *u = draft.terms + j * NALDREV_TERM_WIDTH;
        if (u[0] == NALDREV_BRACKET && u[3] > deepest)
            deepest = u[3];
    }
    return t[3] == deepest + 1 && t[3] <= NALDREV_MAX_DEPTH;
}

static bool term_ok(size_t i)
{
    const uint32_t *t = draft.terms + i * NALDREV_TERM_WIDTH;
    switch (t[0]) {
    case NALDREV_CHAR: return scalar_ok(t[1]) && t[2] == 0 && t[3] == 0 && t[4] == 0;
    case NALDREV_IDENTIFIER:
    case NALDREV_NUMBER: return text_ok(t) && t[3] == 0 && t[4] == 0;
    case NALDREV_BRACKET: return bracket_ok(i, t) && t[4] == 0;
    case NALDREV_UNKNOWN: return t[1] <= 2;
    default: return false;
    }
}

static bool terms_ok(void)
{
    for (size_t i = 0; i < draft.terms_used; i++)
        if (!term_ok(i))
            return false;
    return true;
}

/* ---- arguments ---- */

static bool wild;

static size_t scalar(size_t most) { return wild && one_in(3) ? odd() : one_in(10) ? near(most + 1) : below(most + 1); }

static void pick_field(size_t *node, size_t *len)
{
    *node = one_in(3) && draft.nodes_used > 0 ? draft.nodes_used - 1 : below(draft.nodes_used);
    if (one_in(40))
        *node = odd();
    bool there = *node < draft.nodes_len / NALDREV_NODE_WIDTH;
    size_t reach = there ? reach_of(*node) : 5;
    *len = one_in(3) ? reach : scalar(reach);
}

static size_t count_in(const size_t *list, size_t number)
{
    for (size_t i = 0; list[i] != SIZE_MAX; i++)
        if (list[i] == number)
            return 1;
    return 0;
}

#define END SIZE_MAX

static size_t answered(int call, const size_t *allowed, size_t number)
{
    calls++;
    calls_of[call]++;
    expect(count_in(allowed, number) == 1, "the call answered a number that it cannot");
    answers[number]++;
    /* Of the calls that check terms, 1 comes before 2, and all else after it. */
    if (count_in(allowed, NALDREV_BAD_TERM) == 1 && number != NALDREV_UNEVEN)
        expect((number == NALDREV_BAD_TERM) == !terms_ok(), "2 without a bad term, or a bad term without 2");
    return number;
}

#define UNTOUCHED ((size_t)0xA5A5A5A5A5A5A5A5)
#define STORES names, draft.names_len, terms, draft.terms_len, draft.terms_used, nodes, draft.nodes_len

static size_t new_used, out_a, out_b, out_c, out_d, out_e;

static void reset_outs(void)
{
    new_used = draft.nodes_used;
    out_a = out_b = out_c = out_d = out_e = UNTOUCHED;
}

static void refused(void)
{
    nothing_written();
    expect(out_a == UNTOUCHED && out_b == UNTOUCHED && out_c == UNTOUCHED && out_d == UNTOUCHED && out_e == UNTOUCHED,
           "a refusal wrote an out parameter");
}

/* After a call that builds; true where there is a new field to be read. */
static bool built(size_t number)
{
    if (number != 0) {
        nothing_written();
        expect(new_used == draft.nodes_used && out_a == UNTOUCHED && out_b == UNTOUCHED, "a refusal moved a count or an out parameter");
        return false;
    }
    size_t room = draft.nodes_len / NALDREV_NODE_WIDTH;
    expect(new_used >= draft.nodes_used && new_used <= room && new_used <= NALDREV_MAX_NODES, "the count of nodes passes its store");
    only_written(NODES, draft.nodes_used * NALDREV_NODE_WIDTH, (new_used - draft.nodes_used) * NALDREV_NODE_WIDTH);
    expect(out_a < new_used, "the new field's node is none");
    return true;
}

/* The nodes made are within the rules. */
static void keep_nodes(void)
{
    size_t a = 0, b = 0;
    expect(naldrev_take(STORES, new_used, out_a, out_b, out_b, &a, &b) == 0 && a == out_a && b == out_b, "what a call built is refused");
    draft.nodes_used = new_used;
}

#endif
