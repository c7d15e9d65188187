/* What both drivers share: seeded random numbers, and names, terms, nodes, patterns, bindings and runs within the rules of docs/REFERENCE.md, which
   the drivers then damage. */
#ifndef FUZZ_STATE_H
#define FUZZ_STATE_H

#include <naldrev.h>
#include <stdbool.h>
#include <stdio.h>
#include <stdlib.h>
#include <string.h>

/* ---- random numbers ---- */

static uint64_t random_state;

/* splitmix64: any seed will do. */
static uint64_t next(void)
{
    uint64_t z = random_state += 0x9E3779B97F4A7C15u;
    z = (z ^ (z >> 30)) * 0xBF58476D1CE4E5B9u;
    z = (z ^ (z >> 27)) * 0x94D049BB133111EBu;
    return z ^ (z >> 31);
}

/* A case has numbers of its own, so that it can be run alone. */
static void seed_case(uint64_t seed, uint64_t index)
{
    random_state = seed;
    random_state = next() ^ (index * 0xD6E8FEB86659FD93u);
}

static size_t below(size_t n) { return n == 0 ? 0 : next() % n; }

static bool one_in(size_t n) { return below(n) == 0; }

/* Numbers at which something could go wrong. */
static size_t odd(void)
{
    static const size_t at[] = {
        0, 1, 2, 3, 4, 5, 32, 33, 63, 64, 65, 255, 256, 257, 511, 512, 513, 1023, 1024, 65535, 65536, 65537, 65538,
        0xD7FF, 0xD800, 0xDFFF, 0xE000, 0x10FFFF, 0x110000,
        0x3FFFFFFF, 0x40000000, 0x7FFFFFFF, 0x80000000, 0xFFFFFFFE, 0xFFFFFFFF, 0x100000000, 0x100000001,
        0x4000000000000000, 0x7FFFFFFFFFFFFFFF, 0x8000000000000000, 0xFFFFFFFFFFFFFFFE, 0xFFFFFFFFFFFFFFFF,
    };
    switch (below(4)) {
    case 0: return next();
    case 1: return below(12);
    default: return at[below(sizeof at / sizeof at[0])];
    }
}

/* n, or a number beside it. */
static size_t near(size_t n) { return n + below(3) - 1; }

/* ---- the stores of a case ---- */

#define MOST (65536 + 4)

struct Draft {
    size_t names_len, terms_len, terms_used, nodes_len, nodes_used, runs_len, pattern_len, bindings_len, slots_len, work_len;
    uint8_t names[MOST];
    uint32_t terms[MOST * NALDREV_TERM_WIDTH];
    uint32_t nodes[MOST * NALDREV_NODE_WIDTH];
    uint32_t runs[80 * NALDREV_RUN_WIDTH];
    uint32_t pattern[264 * NALDREV_PATTERN_WIDTH];
    uint32_t bindings[80 * NALDREV_BINDING_WIDTH];
    uint32_t slots[4096];
    uint32_t work[4096];
};

static struct Draft draft;

static void put(uint32_t *record, uint32_t kind, size_t a, size_t b, size_t c)
{
    record[0] = kind;
    record[1] = (uint32_t)a;
    record[2] = (uint32_t)b;
    record[3] = (uint32_t)c;
}

static void put_term(uint32_t *record, uint32_t kind, size_t a, size_t b, size_t c, size_t d)
{
    put(record, kind, a, b, c);
    record[4] = (uint32_t)d;
}

/* Names of letters, digits, - and _ over few letters and many zeros, so that texts are often equal. */
static void make_names(size_t len)
{
    static const char letters[] = "aAbBx120007-_z";
    draft.names_len = len;
    for (size_t i = 0; i < len; i++)
        draft.names[i] = (uint8_t)letters[below(sizeof letters - 1)];
}

static bool is_letter(uint8_t c) { return (c >= 'a' && c <= 'z') || (c >= 'A' && c <= 'Z'); }

static bool is_digit(uint8_t c) { return c >= '0' && c <= '9'; }

/* Looks for a text that a record of this kind may have; false where none was found. */
static bool find_text(uint32_t kind, size_t *offset, size_t *len)
{
    for (int tries = 0; tries < 6; tries++) {
        size_t o = below(draft.names_len);
        size_t most = draft.names_len - o;
        size_t n = 1 + below(one_in(20) ? 260 : 3);
        if (n > most || n > NALDREV_MAX_TEXT)
            continue;
        bool ok = kind != NALDREV_IDENTIFIER || is_letter(draft.names[o]);
        for (size_t i = 0; kind == NALDREV_NUMBER && i < n; i++)
            ok = ok && is_digit(draft.names[o + i]);
        if (ok) {
            *offset = o;
            *len = n;
            return true;
        }
    }
    return false;
}

static uint32_t some_char(void)
{
    static const uint32_t odd_chars[] = {0, 0x7F, 0x80, 0xD7FF, 0xE000, 0xFFFF, 0x10FFFF};
    return one_in(12) ? odd_chars[below(7)] : (uint32_t)('a' + below(3));
}

/* A bracket over lower terms, small enough when spelled out for comparing to end soon. */
static void make_bracket(size_t i, uint32_t *spelled)
{
    size_t start = below(i + 1);
    size_t len = below(1 + (i - start < 4 ? i - start : 4));
    uint32_t size = 1, depth = 0;
    for (size_t j = start; j < start + len; j++) {
        const uint32_t *t = draft.terms + j * NALDREV_TERM_WIDTH;
        size += spelled[j];
        if (t[0] == NALDREV_BRACKET && t[3] > depth)
            depth = t[3];
    }
    if (size > 300 || depth >= NALDREV_MAX_DEPTH) {
        len = 0;
        size = 1;
        depth = 0;
    }
    put_term(draft.terms + i * NALDREV_TERM_WIDTH, NALDREV_BRACKET, start, len, depth + 1, 0);
    spelled[i] = size;
}

/* Half a level: one of few values, so that 0 and 2^64 - 1 come often. */
static size_t half_level(void) { return one_in(9) ? odd() : one_in(3) ? 0xFFFFFFFF : below(2); }

static size_t some_index(void) { return one_in(9) ? odd() : below(2); }

/* An unknown like another: the same, with one word of its own, or with the halves of its level exchanged. So levels often agree in one half alone. */
static void make_like(uint32_t *t, const uint32_t *other)
{
    memcpy(t, other, NALDREV_TERM_WIDTH * sizeof *t);
    switch (below(7)) {
    case 0: t[1] = (uint32_t)below(3); break;
    case 1: t[2] = (uint32_t)half_level(); break;
    case 2: t[3] = (uint32_t)some_index(); break;
    case 3: t[4] = (uint32_t)half_level(); break;
    case 4:
        t[2] = other[4];
        t[4] = other[2];
        break;
    default: break;
    }
}

static void make_terms(size_t used)
{
    static uint32_t spelled[MOST];
    size_t o, n;
    bool many_unknowns = one_in(6);
    uint32_t unknown[NALDREV_TERM_WIDTH];
    put_term(unknown, NALDREV_UNKNOWN, below(3), half_level(), some_index(), half_level());
    draft.terms_used = used;
    for (size_t i = 0; i < used; i++) {
        uint32_t *t = draft.terms + i * NALDREV_TERM_WIDTH;
        uint32_t kind = (uint32_t)below(7);
        spelled[i] = 1;
        if (kind == NALDREV_BRACKET)
            make_bracket(i, spelled);
        else if (kind == NALDREV_UNKNOWN || many_unknowns)
            make_like(t, unknown);
        else if ((kind == NALDREV_IDENTIFIER || kind == NALDREV_NUMBER) && find_text(kind, &o, &n))
            put_term(t, kind, o, n, 0, 0);
        else
            put_term(t, NALDREV_CHAR, some_char(), 0, 0, 0);
    }
}

static void make_runs(size_t count)
{
    draft.runs_len = count * NALDREV_RUN_WIDTH;
    for (size_t i = 0; i < count; i++) {
        size_t start = below(draft.terms_used + 1);
        /* A neighbour of the last run now and then: such runs are fused. */
        if (i > 0 && one_in(3))
            start = draft.runs[2 * i - 2] + draft.runs[2 * i - 1];
        size_t most = draft.terms_used - start;
        draft.runs[2 * i] = (uint32_t)start;
        draft.runs[2 * i + 1] = (uint32_t)below(1 + (one_in(8) || most < 4 ? most : 4));
    }
}

/* Records with brackets paired. Many open e-variables that fit nowhere would take very long, so there are at most open of them. */
static void make_pattern(size_t count, size_t open)
{
    size_t stack[NALDREV_MAX_PATTERN];
    size_t depth = 0, o, n;
    draft.pattern_len = count * NALDREV_PATTERN_WIDTH;
    for (size_t i = 0; i < count; i++) {
        uint32_t *p = draft.pattern + i * NALDREV_PATTERN_WIDTH;
        uint32_t kind = (uint32_t)below(10);
        size_t left = count - i;
        put(p, NALDREV_CHAR, some_char(), 0, 0);
        if (depth > 0 && (left <= depth || kind == NALDREV_CLOSE)) {
            size_t at = stack[--depth];
            put(p, NALDREV_CLOSE, at, 0, 0);
            draft.pattern[at * NALDREV_PATTERN_WIDTH + 1] = (uint32_t)i;
        } else if (kind == NALDREV_OPEN && left >= depth + 2 && depth < NALDREV_MAX_NESTING) {
            stack[depth++] = i;
            put(p, NALDREV_OPEN, 0, 0, 0);
        } else if (kind >= NALDREV_CALL && one_in(6)) {
            put(p, kind, 0, 0, 0);
        } else if (kind >= NALDREV_CALL || kind == NALDREV_E_VARIABLE) {
            if (open > 0 && find_text(NALDREV_E_VARIABLE, &o, &n)) {
                put(p, NALDREV_E_VARIABLE, o, n, 0);
                open--;
            }
        } else if (kind != 0 && kind != NALDREV_OPEN && kind != NALDREV_CLOSE && find_text(kind, &o, &n)) {
            put(p, kind, o, n, 0);
        }
    }
}

/* ---- a pattern that fits ---- */

#define FITTING 60

static void add_pattern(uint32_t kind, size_t a, size_t b)
{
    put(draft.pattern + draft.pattern_len, kind, a, b, 0);
    draft.pattern_len += NALDREV_PATTERN_WIDTH;
}

/* A variable with some name, or else a char. */
static void add_variable(uint32_t kind)
{
    size_t o, n;
    if (find_text(kind, &o, &n))
        add_pattern(kind, o, n);
    else
        add_pattern(NALDREV_CHAR, 'a', 0);
}

/* Adds the terms of a run as records, some of them as variables; few enough e-variables for a listing to end soon. */
static void add_run(size_t start, size_t len, size_t depth, size_t *open)
{
    for (size_t i = start; i < start + len && draft.pattern_len < FITTING * NALDREV_PATTERN_WIDTH; i++) {
        const uint32_t *t = draft.terms + i * NALDREV_TERM_WIDTH;
        if (*open > 0 && one_in(4)) {
            add_variable(NALDREV_E_VARIABLE);
            --*open;
            i += below(3);
            i -= one_in(4);
        } else if (one_in(5) || t[0] == NALDREV_UNKNOWN || depth > 3) {
            add_variable(t[0] == NALDREV_BRACKET || one_in(2) ? NALDREV_T_VARIABLE : NALDREV_S_VARIABLE);
        } else if (t[0] == NALDREV_BRACKET) {
            size_t at = draft.pattern_len;
            add_pattern(NALDREV_OPEN, 0, 0);
            add_run(t[1], t[2], depth + 1, open);
            draft.pattern[at + 1] = (uint32_t)(draft.pattern_len / NALDREV_PATTERN_WIDTH);
            add_pattern(NALDREV_CLOSE, at / NALDREV_PATTERN_WIDTH, 0);
        } else {
            add_pattern(t[0], t[1], t[2]);
        }
    }
}

/* A pattern that fits a run, where no name comes twice with two values. */
static void make_fitting_pattern(size_t start, size_t len, size_t open)
{
    draft.pattern_len = 0;
    if (one_in(2) && open > 1)
        add_variable(NALDREV_E_VARIABLE);
    add_run(start, len, 0, &open);
    if (one_in(2))
        add_variable(NALDREV_E_VARIABLE);
}

/* ---- texts ---- */

static uint8_t lower(uint8_t c) { return c >= 'A' && c <= 'Z' ? (uint8_t)(c + 32) : c; }

static bool same_name(const uint8_t *names, size_t o, size_t n, size_t p, size_t m)
{
    if (n != m)
        return false;
    for (size_t i = 0; i < n; i++)
        if (lower(names[o + i]) != lower(names[p + i]))
            return false;
    return true;
}

/* Whether a variable's kind and name are among records, of the pattern or of the bindings. */
static bool is_named(const uint8_t *names, size_t names_len, const uint32_t *p, const uint32_t *records, size_t len, size_t width)
{
    for (const uint32_t *q = records; q < records + len; q += width)
        if (q[0] == p[0] && (size_t)q[1] + q[2] <= names_len && same_name(names, q[1], q[2], p[1], p[2]))
            return true;
    return false;
}

/* How many names the pattern and the bindings have, where their records are within the rules; any number where they are not. */
static size_t count_names(const uint8_t *names, size_t names_len, const uint32_t *pattern, size_t pattern_len, const uint32_t *bindings,
                          size_t bindings_len)
{
    size_t count = bindings_len / NALDREV_BINDING_WIDTH;
    for (const uint32_t *p = pattern; p < pattern + pattern_len; p += NALDREV_PATTERN_WIDTH)
        if (p[0] >= NALDREV_S_VARIABLE && p[0] <= NALDREV_E_VARIABLE && (size_t)p[1] + p[2] <= names_len)
            count += !is_named(names, names_len, p, bindings, bindings_len, NALDREV_BINDING_WIDTH) &&
                     !is_named(names, names_len, p, pattern, (size_t)(p - pattern), NALDREV_PATTERN_WIDTH);
    return count;
}

/* ---- damage ---- */

static void damage_words(uint32_t *words, size_t len)
{
    if (len == 0)
        return;
    uint32_t *w = words + below(len);
    switch (below(3)) {
    case 0: *w = (uint32_t)odd(); break;
    case 1: *w = (uint32_t)near(*w); break;
    default: *w ^= (uint32_t)1 << below(32);
    }
}

/* The fifth word of one of the first terms. Only that of an unknown may be other than 0. */
static void damage_fifth(size_t count)
{
    if (count > 0)
        draft.terms[below(count) * NALDREV_TERM_WIDTH + 4] = (uint32_t)odd();
}

static void random_words(uint32_t *words, size_t len)
{
    for (size_t i = 0; i < len; i++)
        words[i] = (uint32_t)(one_in(6) ? odd() : below(10));
}

#endif
