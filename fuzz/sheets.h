/* Sheets, for both drivers: the draft's records as a text, damage to the text, and the answer to it. The text is read here a second time,
   by docs/REFERENCE.md; the field and the listing of the answer come from the static library. */
#ifndef FUZZ_SHEETS_H
#define FUZZ_SHEETS_H

#include "state.h"

#define CELL 10      /* bytes of a number */
#define LINE_CELLS 4 /* of all lines but those of terms */
#define LINE (LINE_CELLS * CELL + 1)
#define TERM_LINE (NALDREV_TERM_WIDTH * CELL + 1)
#define LENT_TERMS 1024
#define LENT_NODES 65
#define LENT_SLOTS 16

/* A text, with room for more than the program reads. */
struct Text {
    size_t len;
    uint8_t at[120000];
};

/* The sheet of a case, and the answer to it. */
static struct Text sheet, expected;

/* Of the sheet as it was written. */
static size_t term_lines, name_bytes;

/* ---- writing ---- */

static void add(struct Text *t, const void *bytes, size_t len)
{
    if (t->len + len > sizeof t->at)
        abort();
    memcpy(t->at + t->len, bytes, len);
    t->len += len;
}

static void add_line(struct Text *t, size_t a, size_t b, size_t c, size_t d)
{
    char line[100];
    add(t, line, (size_t)snprintf(line, sizeof line, "%10zu%10zu%10zu%10zu\n", a, b, c, d));
}

static void add_term_line(struct Text *t, const uint32_t *w)
{
    char line[100];
    add(t, line, (size_t)snprintf(line, sizeof line, "%10u%10u%10u%10u%10u\n", w[0], w[1], w[2], w[3], w[4]));
}

/* The draft's first terms and name bytes, its pattern and its runs; words after whole records are left out. */
static void write_sheet(size_t terms, size_t names)
{
    size_t pattern = draft.pattern_len / NALDREV_PATTERN_WIDTH, runs = draft.runs_len / NALDREV_RUN_WIDTH;
    term_lines = terms;
    name_bytes = names;
    sheet.len = 0;
    add_line(&sheet, terms, names, pattern, runs);
    for (size_t i = 0; i < terms; i++)
        add_term_line(&sheet, draft.terms + i * NALDREV_TERM_WIDTH);
    add(&sheet, draft.names, names);
    add(&sheet, "\n", 1);
    for (size_t i = 0; i < pattern; i++) {
        const uint32_t *p = draft.pattern + i * NALDREV_PATTERN_WIDTH;
        add_line(&sheet, p[0], p[1], p[2], p[3]);
    }
    for (size_t i = 0; i < runs; i++)
        add_line(&sheet, draft.runs[2 * i], draft.runs[2 * i + 1], 0, 0);
}

/* ---- reading ---- */

/* What a sheet says; the terms have the room that the program lends. */
struct Parts {
    size_t terms_used, names_len, pattern_len, runs_len;
    uint32_t terms[LENT_TERMS * NALDREV_TERM_WIDTH];
    uint8_t names[NALDREV_SHEET_NAMES];
    uint32_t pattern[NALDREV_SHEET_PATTERN * NALDREV_PATTERN_WIDTH];
    uint32_t runs[NALDREV_SHEET_RUNS * NALDREV_RUN_WIDTH];
};

static struct Parts parts;

static bool read_cell(const uint8_t *cell, uint32_t *word)
{
    size_t i = 0;
    uint64_t value = 0;
    while (i < CELL && cell[i] == ' ')
        i++;
    if (i == CELL || (cell[i] == '0' && i < CELL - 1))
        return false;
    for (; i < CELL; i++) {
        if (!is_digit(cell[i]))
            return false;
        value = value * 10 + (cell[i] - (uint64_t)'0');
    }
    *word = (uint32_t)value;
    return value <= 0xFFFFFFFF;
}

static bool read_line(size_t *at, size_t cells, uint32_t *words)
{
    const uint8_t *line = sheet.at + *at;
    size_t len = cells * CELL + 1;
    if (sheet.len - *at < len || line[len - 1] != '\n')
        return false;
    *at += len;
    for (size_t i = 0; i < cells; i++)
        if (!read_cell(line + i * CELL, words + i))
            return false;
    return true;
}

static bool read_lines(size_t *at, size_t count, size_t cells, uint32_t *words)
{
    for (size_t i = 0; i < count; i++)
        if (!read_line(at, cells, words + i * cells))
            return false;
    return true;
}

/* Reads the sheet into its parts; false where the text is none. */
static bool read_sheet(void)
{
    uint32_t counts[LINE_CELLS], run[LINE_CELLS];
    size_t at = 0;
    if (!read_line(&at, LINE_CELLS, counts) || counts[0] > NALDREV_SHEET_TERMS || counts[1] > NALDREV_SHEET_NAMES ||
        counts[2] > NALDREV_SHEET_PATTERN || counts[3] > NALDREV_SHEET_RUNS ||
        !read_lines(&at, counts[0], NALDREV_TERM_WIDTH, parts.terms))
        return false;
    if (sheet.len - at < counts[1] + 1 || sheet.at[at + counts[1]] != '\n')
        return false;
    memcpy(parts.names, sheet.at + at, counts[1]);
    at += counts[1] + 1;
    if (!read_lines(&at, counts[2], NALDREV_PATTERN_WIDTH, parts.pattern))
        return false;
    for (size_t i = 0; i < counts[3]; i++) {
        if (!read_line(&at, LINE_CELLS, run) || run[2] != 0 || run[3] != 0)
            return false;
        memcpy(parts.runs + 2 * i, run, 2 * sizeof run[0]);
    }
    parts.terms_used = counts[0];
    parts.names_len = counts[1];
    parts.pattern_len = counts[2] * NALDREV_PATTERN_WIDTH;
    parts.runs_len = counts[3] * NALDREV_RUN_WIDTH;
    return at == sheet.len;
}

/* ---- the answer ---- */

static void refuse(size_t number) { add_line(&expected, number, 0, 0, 0); }

/* What the program prints for the sheet, into expected. */
static void answer(void)
{
    static uint32_t nodes[LENT_NODES * NALDREV_NODE_WIDTH], slots[LENT_SLOTS * 2 * NALDREV_MAX_PATTERN];
    static const uint32_t none[1];
    size_t nodes_used = 1, node, len, count, entries;
    expected.len = 0;
    if (!read_sheet()) {
        refuse(NALDREV_BAD_SHEET);
        return;
    }
    memset(nodes, 0, sizeof nodes);
    size_t number = naldrev_from_runs(parts.names, parts.names_len, parts.terms, LENT_TERMS * NALDREV_TERM_WIDTH, parts.terms_used, nodes,
                                      LENT_NODES * NALDREV_NODE_WIDTH, &nodes_used, parts.runs, parts.runs_len, &node, &len);
    size_t named = count_names(parts.names, parts.names_len, parts.pattern, parts.pattern_len, none, 0);
    if (number == 0)
        number = naldrev_match_pattern_with_bindings_candidates(
            parts.names, parts.names_len, parts.terms, LENT_TERMS * NALDREV_TERM_WIDTH, &parts.terms_used, nodes,
            LENT_NODES * NALDREV_NODE_WIDTH, nodes_used, node, len, parts.pattern, parts.pattern_len, none, 0, slots,
            LENT_SLOTS * 2 * named, &count, &entries);
    if (number != 0 && number != NALDREV_MORE_THAN_FIT) {
        refuse(number);
        return;
    }
    add_line(&expected, number, count, entries, 0);
    for (size_t i = 0; i < count * entries; i++)
        add_line(&expected, i / entries + 1, i % entries + 1, slots[2 * i], slots[2 * i + 1]);
}

/* ---- damage to the text ---- */

static void insert_byte(size_t at, uint8_t byte)
{
    memmove(sheet.at + at + 1, sheet.at + at, sheet.len - at);
    sheet.at[at] = byte;
    sheet.len++;
}

static void remove_byte(size_t at)
{
    if (sheet.len > 0) {
        memmove(sheet.at + at, sheet.at + at + 1, sheet.len - at - 1);
        sheet.len--;
    }
}

static void random_bytes(size_t len)
{
    for (size_t i = 0; i < len; i++) {
        uint8_t byte = (uint8_t)(one_in(3) ? next() : (uint64_t)" 0123456789\n"[below(12)]);
        add(&sheet, &byte, 1);
    }
}

/* Where a cell starts: of the counts, of a term, or of a line after the names. */
static size_t some_cell(void)
{
    size_t records_at = LINE + TERM_LINE * term_lines + name_bytes + 1, records = (sheet.len - records_at) / LINE;
    size_t part = below(3);
    if (part == 0 && term_lines > 0)
        return LINE + TERM_LINE * below(term_lines) + CELL * below(NALDREV_TERM_WIDTH);
    if (part == 1 && records > 0)
        return records_at + LINE * below(records) + CELL * below(LINE_CELLS);
    return CELL * below(LINE_CELLS);
}

static void change_cell(void)
{
    static const char *const cells[] = {"0000000001", "        00", "4294967295", "4294967296", "9999999999", "          ", "1         ",
                                        "        -1", "        +1", "       1 0", "\t        1", "       0x1", "    65536 ", "     65537"};
    memcpy(sheet.at + some_cell(), cells[below(sizeof cells / sizeof cells[0])], CELL);
}

/* A line gets a cell of 0 more, or loses one: a term's line as long as the others, or another as long as a term's. */
static void change_width(void)
{
    uint8_t *at = sheet.at + some_cell();
    size_t after = sheet.len - (size_t)(at - sheet.at);
    if (one_in(2)) {
        memmove(at, at + CELL, after - CELL);
        sheet.len -= CELL;
    } else {
        memmove(at + CELL, at, after);
        memcpy(at, "         0", CELL);
        sheet.len += CELL;
    }
}

#define TEXT_CHANGES 9

/* One of the changes of a text. */
static void change_text(size_t change)
{
    static const char near_bytes[] = " 0123456789\n\r\t-+";
    switch (change) {
    case 0: sheet.at[below(sheet.len)] = (uint8_t)next(); break;
    case 1: sheet.at[below(sheet.len)] = (uint8_t)near_bytes[below(sizeof near_bytes - 1)]; break;
    case 2: sheet.len = one_in(3) ? sheet.len - 1 : below(sheet.len); break;
    case 3: random_bytes(one_in(4) ? below(40000) : 1 + below(3)); break;
    case 4: insert_byte(below(sheet.len), one_in(2) ? ' ' : (uint8_t)near_bytes[below(11)]); break;
    case 5: remove_byte(below(sheet.len)); break;
    case 6: change_cell(); break;
    case 7: change_width(); break;
    default:
        sheet.len = 0;
        random_bytes(one_in(5) ? below(60000) : below(200));
    }
}

#endif
