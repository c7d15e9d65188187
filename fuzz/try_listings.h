/* The exports that list and that count names. */
#ifndef FUZZ_TRY_LISTINGS_H
#define FUZZ_TRY_LISTINGS_H

#include "answers.h"

/* The place of a variable among the entries: the start's, then the pattern's by first occurrence. */
static size_t entry_of(const uint32_t *p)
{
    size_t k = 0;
    for (size_t i = 0; i < draft.bindings_len; i += NALDREV_BINDING_WIDTH, k++)
        if (bindings[i] == p[0] && same_text(bindings[i + 1], bindings[i + 2], p[1], p[2]))
            return k;
    for (const uint32_t *q = pattern; q < p; q += NALDREV_PATTERN_WIDTH) {
        bool known = q[0] < NALDREV_S_VARIABLE || q[0] > NALDREV_E_VARIABLE;
        for (size_t i = 0; !known && i < draft.bindings_len; i += NALDREV_BINDING_WIDTH)
            known = bindings[i] == q[0] && same_text(bindings[i + 1], bindings[i + 2], q[1], q[2]);
        for (const uint32_t *r = pattern; !known && r < q; r += NALDREV_PATTERN_WIDTH)
            known = r[0] == q[0] && same_text(r[1], r[2], q[1], q[2]);
        if (known)
            continue;
        if (q[0] == p[0] && same_text(q[1], q[2], p[1], p[2]))
            return k;
        k++;
    }
    return k;
}

static bool literal_fits(const uint32_t *p, const uint32_t *t)
{
    if (p[0] != t[0])
        return false;
    if (p[0] == NALDREV_IDENTIFIER)
        return same_text(p[1], p[2], t[1], t[2]);
    if (p[0] == NALDREV_NUMBER)
        return same_number(p[1], p[2], t[1], t[2]);
    return p[1] == t[1];
}

/* A candidate, put into the pattern's records from first to last, gives the terms from at to end. */
static bool fits(const uint32_t *slot, size_t first, size_t last, size_t at, size_t end)
{
    for (size_t i = first; i < last; i++) {
        const uint32_t *p = pattern + i * NALDREV_PATTERN_WIDTH;
        if (p[0] >= NALDREV_S_VARIABLE && p[0] <= NALDREV_E_VARIABLE) {
            const uint32_t *run = slot + entry_of(p) * NALDREV_RUN_WIDTH;
            if (run[1] > end - at || !equal_runs(run[0], run[1], at, run[1]) || (p[0] != NALDREV_E_VARIABLE && run[1] != 1))
                return false;
            at += run[1];
        } else if (at == end) {
            return false;
        } else if (p[0] == NALDREV_OPEN) {
            const uint32_t *t = term(at++);
            if (t[0] != NALDREV_BRACKET || !fits(slot, i + 1, p[1], t[1], t[1] + t[2]))
                return false;
            i = p[1];
        } else if (p[0] > NALDREV_E_VARIABLE || !literal_fits(p, term(at++))) {
            return false;
        }
    }
    return at == end;
}

/* The settled copy has the field's terms; gives where the field stands in the store now. */
static size_t settled_at(size_t node, size_t len, size_t used)
{
    if (used != draft.terms_used) {
        expect(used == draft.terms_used + len && used * NALDREV_TERM_WIDTH <= draft.terms_len && used <= NALDREV_MAX_TERMS,
               "the count of terms moved by another number than the field's length");
        spell_field(&first_list, node, len);
        for (size_t i = 0; i < len; i++)
            expect(same_words(term(draft.terms_used + i), term(first_list.at[i])), "the copy has other terms");
        return draft.terms_used;
    }
    return len == 0 ? 0 : nodes[node * NALDREV_NODE_WIDTH + 1];
}

/* Slots and terms may both be written: the words outside of both are compared. */
static void listing_written(size_t used, size_t slot_words)
{
    size_t from = draft.terms_used * NALDREV_TERM_WIDTH, to = used * NALDREV_TERM_WIDTH;
    const struct Buffer *b = &buffers[TERMS];
    expect(memcmp(terms, b->before, from * sizeof(uint32_t)) == 0, "a used term changed");
    expect(memcmp(terms + to, draft.terms + to, (draft.terms_len - to) * sizeof(uint32_t)) == 0, "a term after the copy changed");
    memcpy(draft.terms + from, terms + from, (to - from) * sizeof(uint32_t));
    only_written(SLOTS, 0, slot_words);
}

static void check_slots(size_t at, size_t len, size_t used)
{
    for (size_t i = 0; i < out_a; i++) {
        const uint32_t *slot = slots + i * out_b * NALDREV_RUN_WIDTH;
        for (size_t j = 0; j < out_b; j++)
            expect((size_t)slot[2 * j] + slot[2 * j + 1] <= used, "a candidate's run ends past the terms");
        for (size_t j = 0; j < draft.bindings_len / NALDREV_BINDING_WIDTH; j++)
            expect(memcmp(slot + 2 * j, bindings + j * NALDREV_BINDING_WIDTH + 3, 2 * sizeof *slot) == 0, "a starting binding changed");
        expect(fits(slot, 0, draft.pattern_len / NALDREV_PATTERN_WIDTH, at, at + len), "a candidate does not fit");
    }
}

static size_t room_for(size_t entries) { return entries == 0 ? 1 : draft.slots_len / (entries * NALDREV_RUN_WIDTH); }

static void listed(size_t number, bool first, size_t node, size_t len, size_t used)
{
    bool has_list = number == 0 || number == 15;
    if (!has_list)
        expect(out_a == UNTOUCHED && out_b == UNTOUCHED, "a refusal wrote an out parameter");
    if (!has_list && number != 10 && number != 11) {
        expect(used == draft.terms_used, "a refusal moved a count");
        nothing_written();
        return;
    }
    size_t at = settled_at(node, len, used);
    if (!has_list) {
        listing_written(used, 0);
    } else {
        size_t room = room_for(out_b);
        expect(out_b <= NALDREV_MAX_ENTRIES && out_a <= room, "there are more candidates or entries than fit");
        if (first)
            expect(number == 0 ? out_a == 1 : out_a == 0 && room == 0, "a first match has another count than 1, or 15 with a slot free");
        else
            expect(number == 0 ? out_a >= 1 : out_a == room, "a listing of none, or 15 with a slot free");
        listing_written(used, out_a * out_b * NALDREV_RUN_WIDTH);
        check_slots(at, len, used);
    }
    draft.terms_used = used;
}

static void try_listing(void)
{
    static const size_t allowed[] = {0, 1, 2, 3, 4, 5, 7, 8, 9, 10, 11, 13, 15, END};
    size_t n, l, used = draft.terms_used;
    bool first = one_in(2);
    pick_field(&n, &l);
    current_call = first ? "naldrev_match_pattern_first" : "naldrev_match_pattern_with_bindings_candidates";
    size_t number =
        first ? naldrev_match_pattern_first(names, draft.names_len, terms, draft.terms_len, &used, nodes, draft.nodes_len,
                                            draft.nodes_used, n, l, pattern, draft.pattern_len, bindings, draft.bindings_len, slots,
                                            draft.slots_len, &out_a, &out_b)
              : naldrev_match_pattern_with_bindings_candidates(names, draft.names_len, terms, draft.terms_len, &used, nodes,
                                                               draft.nodes_len, draft.nodes_used, n, l, pattern, draft.pattern_len,
                                                               bindings, draft.bindings_len, slots, draft.slots_len, &out_a, &out_b);
    answered(first ? 10 : 9, allowed, number);
    listed(number, first, n, l, used);
}

/* The number of a listing on the empty field; the bindings' runs are made empty, so that their ends are no matter. */
static size_t listing_number(void)
{
    static const uint32_t nil[NALDREV_NODE_WIDTH];
    static uint32_t empty[1], none[1], bound[80 * NALDREV_BINDING_WIDTH];
    size_t used = 0, a, b;
    for (size_t i = 0; i < draft.bindings_len; i++)
        bound[i] = i % NALDREV_BINDING_WIDTH < 3 ? bindings[i] : 0;
    return naldrev_match_pattern_with_bindings_candidates(names, draft.names_len, empty, 0, &used, nil, NALDREV_NODE_WIDTH, 1, 0, 0,
                                                          pattern, draft.pattern_len, bound, draft.bindings_len, none, 0, &a, &b);
}

static void try_name_count(void)
{
    current_call = "naldrev_name_count";
    size_t count = naldrev_name_count(names, draft.names_len, pattern, draft.pattern_len, bindings, draft.bindings_len);
    calls++;
    calls_of[11]++;
    nothing_written();
    expect(count <= NALDREV_MAX_ENTRIES, "there are more names than a candidate has");
    /* The listing refuses longer names, which the count doesn't look at. */
    if (draft.names_len > NALDREV_MAX_NAMES)
        return;
    size_t number = listing_number();
    bool none = number == NALDREV_UNEVEN || number == NALDREV_BAD_PATTERN || number == NALDREV_BAD_BINDING;
    size_t own = none ? 0 : count_names(names, draft.names_len, pattern, draft.pattern_len, bindings, draft.bindings_len);
    expect((own > NALDREV_MAX_ENTRIES) == (number == NALDREV_TOO_MANY_NAMES), "the listing finds another number of names");
    expect(count == (own > NALDREV_MAX_ENTRIES ? 0 : own), "the count is another one");
}

#endif
