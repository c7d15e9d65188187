/* The exports on fields and runs, one function for each. */
#ifndef FUZZ_TRY_FIELDS_H
#define FUZZ_TRY_FIELDS_H

#include "answers.h"

static void try_from_runs(void)
{
    static const size_t allowed[] = {0, 1, 2, 3, 5, 6, 12, END};
    current_call = "naldrev_from_runs";
    if (!built(answered(0, allowed, naldrev_from_runs(STORES, &new_used, runs, draft.runs_len, &out_a, &out_b))))
        return;
    first_list.len = 0;
    for (size_t i = 0; i < draft.runs_len; i += 2)
        for (size_t j = 0; j < runs[i + 1]; j++)
            first_list.at[first_list.len++] = runs[i] + (uint32_t)j;
    expect_terms(&first_list, 0, first_list.len, out_a, out_b);
    keep_nodes();
}

static void try_join(void)
{
    static const size_t allowed[] = {0, 1, 2, 3, 4, 6, 12, END};
    size_t ln, ll, rn, rl;
    pick_field(&ln, &ll);
    pick_field(&rn, &rl);
    current_call = "naldrev_join";
    if (!built(answered(1, allowed, naldrev_join(STORES, &new_used, ln, ll, rn, rl, &out_a, &out_b))))
        return;
    spell_field(&first_list, ln, ll);
    spell_field(&second_list, rn, rl);
    memcpy(first_list.at + ll, second_list.at, rl * sizeof first_list.at[0]);
    expect_terms(&first_list, 0, ll + rl, out_a, out_b);
    keep_nodes();
}

static void try_take(void)
{
    static const size_t allowed[] = {0, 1, 2, 3, 4, 5, END};
    size_t n, l;
    pick_field(&n, &l);
    size_t count = scalar(l);
    current_call = "naldrev_take";
    if (!built(answered(2, allowed, naldrev_take(STORES, draft.nodes_used, n, l, count, &out_a, &out_b))))
        return;
    spell_field(&first_list, n, l);
    expect_terms(&first_list, 0, count, out_a, out_b);
}

static void try_rest(void)
{
    static const size_t allowed[] = {0, 1, 2, 3, 4, 5, 12, END};
    size_t n, l;
    pick_field(&n, &l);
    size_t count = scalar(l);
    current_call = "naldrev_rest";
    if (!built(answered(3, allowed, naldrev_rest(STORES, &new_used, n, l, count, &out_a, &out_b))))
        return;
    spell_field(&first_list, n, l);
    expect_terms(&first_list, count, l - count, out_a, out_b);
    keep_nodes();
}

static void try_range(void)
{
    static const size_t allowed[] = {0, 1, 2, 3, 4, 5, 12, END};
    size_t n, l;
    pick_field(&n, &l);
    size_t start = scalar(l);
    size_t count = scalar(start <= l ? l - start : l);
    current_call = "naldrev_range";
    if (!built(answered(4, allowed, naldrev_range(STORES, &new_used, n, l, start, count, &out_a, &out_b))))
        return;
    spell_field(&first_list, n, l);
    expect_terms(&first_list, start, count, out_a, out_b);
    keep_nodes();
}

/* After a call that answers yes or no. */
static bool decided(size_t number)
{
    nothing_written();
    expect(number == 0 ? out_a <= 1 : out_a == UNTOUCHED, "the out parameter is neither 0 nor 1, or a refusal wrote it");
    return number == 0;
}

static void try_starts_with(void)
{
    static const size_t allowed[] = {0, 1, 2, 3, 4, END};
    size_t n, l, fn, fl;
    pick_field(&n, &l);
    pick_field(&fn, &fl);
    current_call = "naldrev_starts_with";
    if (!decided(answered(5, allowed, naldrev_starts_with(STORES, draft.nodes_used, n, l, fn, fl, &out_a))))
        return;
    spell_field(&first_list, n, l);
    spell_field(&second_list, fn, fl);
    expect(out_a == (fl <= l && starts_equal(&first_list, &second_list, fl)), "the answer is the other one");
}

static void try_equal(void)
{
    static const size_t allowed[] = {0, 1, 2, 3, 4, END};
    size_t n, l, rn, rl;
    pick_field(&n, &l);
    pick_field(&rn, &rl);
    current_call = "naldrev_equal";
    if (!decided(answered(6, allowed, naldrev_equal(STORES, draft.nodes_used, n, l, rn, rl, &out_a))))
        return;
    spell_field(&first_list, n, l);
    spell_field(&second_list, rn, rl);
    expect(out_a == (l == rl && starts_equal(&first_list, &second_list, l)), "the answer is the other one");
}

static void try_flatten(void)
{
    static const size_t allowed[] = {0, 1, 2, 3, 4, 14, END};
    size_t n, l;
    pick_field(&n, &l);
    current_call = "naldrev_flatten";
    size_t number = naldrev_flatten(STORES, draft.nodes_used, n, l, work, draft.work_len, &out_a, &out_b, &out_c);
    if (answered(7, allowed, number) != 0) {
        refused();
        return;
    }
    expect(out_a <= 1 && out_c == l, "the part shown has another length");
    only_written(WORK, 0, out_a == 1 ? l * NALDREV_TERM_WIDTH : 0);
    spell_field(&first_list, n, l);
    const uint32_t *shown = out_a == 1 ? work : terms + out_b * NALDREV_TERM_WIDTH;
    expect(out_a == 1 ? out_b == 0 : out_b + l <= draft.terms_used, "the part shown is past its store");
    for (size_t i = 0; i < l; i++)
        expect(same_words(shown + i * NALDREV_TERM_WIDTH, term(first_list.at[i])), "the part shown has other terms");
}

static void try_compare_runs(void)
{
    static const size_t allowed[] = {0, 1, 2, 5, END};
    size_t s = scalar(draft.terms_used), n = scalar(3), t = one_in(2) ? scalar(draft.terms_used) : s, m = one_in(3) ? scalar(3) : n;
    current_call = "naldrev_compare_runs";
    size_t number = naldrev_compare_runs(names, draft.names_len, terms, draft.terms_len, draft.terms_used, s, n, t, m, &out_a);
    if (decided(answered(8, allowed, number)))
        expect(out_a == equal_runs(s, n, t, m), "the answer is the other one");
}

#endif
