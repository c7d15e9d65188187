/* The exports on sheets. */
#ifndef FUZZ_TRY_SHEETS_H
#define FUZZ_TRY_SHEETS_H

#include "answers.h"

/* A length for what takes so many: enough in three of four. */
static size_t some_room(size_t need, size_t most)
{
    size_t len = need;
    switch (below(8)) {
    case 0: len = below(need + 1); break;
    case 1: len = need - (need > 0); break;
    case 2: len = need + 1; break;
    case 3: len = need + below(40); break;
    default: break;
    }
    return len < most ? len : most;
}

static uint8_t *lend_out(size_t need)
{
    room.out_len = one_in(50) ? NALDREV_ANSWER_BYTES : some_room(need, sizeof room.out);
    return lend(OUT, room.out_len);
}

/* The case's records as a sheet, in half of the calls changed. */
static const uint8_t *lend_sheet(void)
{
    size_t count = terms_there(), change = below(2 * TEXT_CHANGES);
    write_sheet(count <= NALDREV_SHEET_TERMS ? count : NALDREV_SHEET_TERMS + 1,
                draft.names_len <= NALDREV_SHEET_NAMES ? draft.names_len : NALDREV_SHEET_NAMES + 1);
    if (change < TEXT_CHANGES)
        change_text(change);
    return lend(SHEET, sheet.len);
}

/* After a call that writes bytes, which have to be the first ones of the buffer lent, and no others. */
static void wrote(size_t number, const struct Text *text)
{
    if (number != 0) {
        refused();
        return;
    }
    expect(out_a == text->len && out_a <= room.out_len, "another number of bytes was written");
    memcpy(room.out, text->at, text->len);
    nothing_written();
}

/* Reads a text into slices of these lengths. */
static size_t read_text(const uint8_t *text, size_t len)
{
    uint32_t *t = lend(READ_TERMS, room.terms_len * sizeof *t);
    uint32_t *p = lend(READ_PATTERN, room.pattern_len * sizeof *p);
    uint32_t *r = lend(READ_RUNS, room.runs_len * sizeof *r);
    return naldrev_read_sheet(text, len, t, room.terms_len, p, room.pattern_len, r, room.runs_len, &out_a, &out_b, &out_c, &out_d, &out_e);
}

/* After a sheet was read: these words are the first ones of the slices, the words after them stay, and the counts are theirs. */
static void has_read(const uint32_t *t, size_t t_len, size_t names_len, const uint32_t *p, size_t p_len, const uint32_t *r, size_t r_len)
{
    expect(t_len <= room.terms_len && p_len <= room.pattern_len && r_len <= room.runs_len, "a slice is too short for what was read");
    memcpy(room.terms, t, t_len * sizeof *t);
    memcpy(room.pattern, p, p_len * sizeof *p);
    memcpy(room.runs, r, r_len * sizeof *r);
    nothing_written();
    expect(out_a == t_len / NALDREV_TERM_WIDTH && out_c == names_len && out_d == p_len / NALDREV_PATTERN_WIDTH &&
               out_e == r_len / NALDREV_RUN_WIDTH,
           "a count is another one");
    expect(out_b == LINE + TERM_LINE * out_a, "the names start elsewhere");
}

static void try_read_sheet(void)
{
    static const size_t allowed[] = {0, 14, 16, END};
    const uint8_t *text = lend_sheet();
    bool whole = read_sheet();
    room.terms_len = some_room(whole ? parts.terms_used * NALDREV_TERM_WIDTH : 20, sizeof room.terms / sizeof room.terms[0]);
    room.pattern_len = some_room(whole ? parts.pattern_len : 20, sizeof room.pattern / sizeof room.pattern[0]);
    room.runs_len = some_room(whole ? parts.runs_len : 20, sizeof room.runs / sizeof room.runs[0]);
    current_call = "naldrev_read_sheet";
    size_t number = answered(12, allowed, read_text(text, sheet.len));
    bool fit = parts.terms_used * NALDREV_TERM_WIDTH <= room.terms_len && parts.pattern_len <= room.pattern_len &&
               parts.runs_len <= room.runs_len;
    expect(number == (!whole ? NALDREV_BAD_SHEET : fit ? NALDREV_OK : NALDREV_WORK_SHORT), "the answer is another one");
    if (number != 0) {
        refused();
        return;
    }
    has_read(parts.terms, parts.terms_used * NALDREV_TERM_WIDTH, parts.names_len, parts.pattern, parts.pattern_len, parts.runs,
             parts.runs_len);
    expect(memcmp(text + out_b, parts.names, out_c) == 0, "the names are others");
}

/* What was written gives the same words again. */
static void read_again(const uint8_t *text, size_t len)
{
    current_call = "naldrev_read_sheet on what naldrev_write_sheet wrote";
    room.terms_len = draft.terms_len;
    room.pattern_len = draft.pattern_len;
    room.runs_len = draft.runs_len;
    expect(read_text(text, len) == 0, "what was written is no sheet");
    has_read(draft.terms, draft.terms_len, draft.names_len, draft.pattern, draft.pattern_len, draft.runs, draft.runs_len);
    expect(memcmp(text + out_b, draft.names, out_c) == 0, "the names are others");
}

static bool within_limits(void)
{
    return draft.terms_len % NALDREV_TERM_WIDTH == 0 && draft.pattern_len % NALDREV_PATTERN_WIDTH == 0 &&
           draft.runs_len % NALDREV_RUN_WIDTH == 0 && draft.terms_len / NALDREV_TERM_WIDTH <= NALDREV_SHEET_TERMS &&
           draft.names_len <= NALDREV_SHEET_NAMES && draft.pattern_len / NALDREV_PATTERN_WIDTH <= NALDREV_SHEET_PATTERN &&
           draft.runs_len / NALDREV_RUN_WIDTH <= NALDREV_SHEET_RUNS;
}

static void try_write_sheet(void)
{
    static const size_t allowed[] = {0, 1, 14, END};
    bool whole = within_limits();
    sheet.len = 0;
    if (whole)
        write_sheet(draft.terms_len / NALDREV_TERM_WIDTH, draft.names_len);
    uint8_t *out = lend_out(whole ? sheet.len : NALDREV_SHEET_BYTES);
    current_call = "naldrev_write_sheet";
    size_t number = naldrev_write_sheet(terms, draft.terms_len, names, draft.names_len, pattern, draft.pattern_len, runs, draft.runs_len,
                                        out, room.out_len, &out_a);
    answered(13, allowed, number);
    expect(number == (!whole ? NALDREV_UNEVEN : sheet.len <= room.out_len ? NALDREV_OK : NALDREV_WORK_SHORT), "the answer is another one");
    wrote(number, &sheet);
    if (number == 0)
        read_again(out, sheet.len);
}

static void try_run_sheet(void)
{
    static const size_t allowed[] = {0, 14, END};
    const uint8_t *text = lend_sheet();
    answer();
    uint8_t *out = lend_out(expected.len);
    current_call = "naldrev_run_sheet";
    size_t number = answered(14, allowed, naldrev_run_sheet(text, sheet.len, out, room.out_len, &out_a));
    expect(number == (expected.len <= room.out_len ? NALDREV_OK : NALDREV_WORK_SHORT), "the answer is another one");
    wrote(number, &expected);
}

#endif
