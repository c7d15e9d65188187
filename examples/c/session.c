/* A charging session, its readings in brackets, comes in two parts. They are joined, a price sentence is tried on them, and what each of its
   variables stands for is printed. With the library installed (docs/C.md):
     gcc session.c $(pkg-config --cflags --libs naldrev) -o session && ./session */
#include <naldrev_store.h>
#include <stdio.h>
#include <stdlib.h>
#include <string.h>

#define LENGTH(a) (sizeof(a) / sizeof((a)[0]))

/* A term of a message or a record of a pattern, with its text; brackets have none. */
typedef struct item {
    uint32_t kind;
    const char *text;
} item;

/* Session Harbour-3 (Start 1015) (Meter 1015 1208) */
static const item first_part[] = {
    {NALDREV_IDENTIFIER, "Session"}, {NALDREV_IDENTIFIER, "Harbour-3"},
    {NALDREV_OPEN, ""}, {NALDREV_IDENTIFIER, "Start"}, {NALDREV_NUMBER, "1015"}, {NALDREV_CLOSE, ""},
    {NALDREV_OPEN, ""}, {NALDREV_IDENTIFIER, "Meter"}, {NALDREV_NUMBER, "1015"}, {NALDREV_NUMBER, "1208"}, {NALDREV_CLOSE, ""},
};

/* (Meter 1140 1250) (Stop 1140) (kWh 42) */
static const item second_part[] = {
    {NALDREV_OPEN, ""}, {NALDREV_IDENTIFIER, "Meter"}, {NALDREV_NUMBER, "1140"}, {NALDREV_NUMBER, "1250"}, {NALDREV_CLOSE, ""},
    {NALDREV_OPEN, ""}, {NALDREV_IDENTIFIER, "Stop"}, {NALDREV_NUMBER, "1140"}, {NALDREV_CLOSE, ""},
    {NALDREV_OPEN, ""}, {NALDREV_IDENTIFIER, "kWh"}, {NALDREV_NUMBER, "42"}, {NALDREV_CLOSE, ""},
};

/* Session s.point (Start s.from) e.meters (Stop s.to) (kWh s.energy) */
static const item sentence[] = {
    {NALDREV_IDENTIFIER, "Session"}, {NALDREV_S_VARIABLE, "point"},
    {NALDREV_OPEN, ""}, {NALDREV_IDENTIFIER, "Start"}, {NALDREV_S_VARIABLE, "from"}, {NALDREV_CLOSE, ""},
    {NALDREV_E_VARIABLE, "meters"},
    {NALDREV_OPEN, ""}, {NALDREV_IDENTIFIER, "Stop"}, {NALDREV_S_VARIABLE, "to"}, {NALDREV_CLOSE, ""},
    {NALDREV_OPEN, ""}, {NALDREV_IDENTIFIER, "kWh"}, {NALDREV_S_VARIABLE, "energy"}, {NALDREV_CLOSE, ""},
};

static uint8_t names[512];
static uint32_t terms[64 * NALDREV_TERM_WIDTH];
static uint32_t nodes[16 * NALDREV_NODE_WIDTH];
static naldrev_store store = {names, 0, terms, LENGTH(terms), 0, nodes, LENGTH(nodes), 0};

/* Ends the program unless a call was accepted. */
static void accepted(const char *call, size_t number)
{
    if (number == NALDREV_OK)
        return;
    fprintf(stderr, "%s: number %zu: %s\n", call, number, naldrev_text(number));
    exit(1);
}

static void room_for(const char *what, size_t wanted, size_t there)
{
    if (wanted <= there)
        return;
    fprintf(stderr, "no room for the %s\n", what);
    exit(1);
}

/* Puts a text behind the names. Returns its offset. */
static uint32_t add_name(const char *text)
{
    size_t offset = store.names_len, len = strlen(text);
    room_for("names", offset + len, sizeof names);
    memcpy(names + offset, text, len);
    store.names_len += len;
    return (uint32_t)offset;
}

static void add_term(uint32_t kind, uint32_t a, uint32_t b, uint32_t c)
{
    uint32_t *term = terms + store.terms_used * NALDREV_TERM_WIDTH;
    room_for("terms", (store.terms_used + 1) * NALDREV_TERM_WIDTH, store.terms_len);
    term[0] = kind;
    term[1] = a;
    term[2] = b;
    term[3] = c;
    term[4] = 0; /* only unknowns use it */
    store.terms_used++;
}

/* The place of the close that belongs to the open at i; no bracket here stands in another. */
static size_t close_of(const item *items, size_t i)
{
    while (items[i].kind != NALDREV_CLOSE)
        i++;
    return i;
}

/* Adds a part of a message. What stands in its brackets comes first, then the part itself, so that it is one run. */
static naldrev_field add_part(const item *items, size_t count)
{
    uint32_t inside = (uint32_t)store.terms_used;
    for (size_t i = 0; i < count; i++)
        if (items[i].kind == NALDREV_OPEN)
            for (i++; items[i].kind != NALDREV_CLOSE; i++)
                add_term(items[i].kind, add_name(items[i].text), (uint32_t)strlen(items[i].text), 0);
    uint32_t start = (uint32_t)store.terms_used;
    for (size_t i = 0; i < count; i++) {
        if (items[i].kind != NALDREV_OPEN) {
            add_term(items[i].kind, add_name(items[i].text), (uint32_t)strlen(items[i].text), 0);
            continue;
        }
        uint32_t len = (uint32_t)(close_of(items, i) - i - 1);
        add_term(NALDREV_BRACKET, inside, len, 1);
        inside += len;
        i += len + 1;
    }
    const uint32_t run[] = {start, (uint32_t)store.terms_used - start};
    naldrev_field part = NALDREV_EMPTY_FIELD;
    accepted("from_runs", naldrev_store_from_runs(&store, run, LENGTH(run), &part));
    return part;
}

/* The words of a pattern. */
static void write_pattern(const item *items, size_t count, uint32_t *words)
{
    uint32_t open = 0;
    memset(words, 0, count * NALDREV_PATTERN_WIDTH * sizeof words[0]);
    for (size_t i = 0; i < count; i++) {
        uint32_t *record = words + i * NALDREV_PATTERN_WIDTH;
        record[0] = items[i].kind;
        if (items[i].kind == NALDREV_OPEN) {
            open = (uint32_t)i;
            record[1] = (uint32_t)close_of(items, i);
        } else if (items[i].kind == NALDREV_CLOSE) {
            record[1] = open;
        } else {
            record[1] = add_name(items[i].text);
            record[2] = (uint32_t)strlen(items[i].text);
        }
    }
}

static void print_run(size_t start, size_t len)
{
    for (size_t i = start; i < start + len; i++) {
        const uint32_t *term = terms + i * NALDREV_TERM_WIDTH;
        if (i > start)
            putchar(' ');
        if (term[0] == NALDREV_BRACKET) {
            putchar('(');
            print_run(term[1], term[2]);
            putchar(')');
        } else {
            printf("%.*s", (int)term[2], (const char *)names + term[1]);
        }
    }
}

/* The sentence names each variable once, so that the entries of a candidate come in its order. */
static void print_candidate(const naldrev_slots *slots, size_t candidate)
{
    size_t entry = 0;
    for (size_t i = 0; i < LENGTH(sentence); i++) {
        if (sentence[i].kind != NALDREV_S_VARIABLE && sentence[i].kind != NALDREV_E_VARIABLE)
            continue;
        naldrev_run run = naldrev_slots_run(slots, candidate, entry++);
        printf("%c.%s = ", sentence[i].kind == NALDREV_S_VARIABLE ? 's' : 'e', sentence[i].text);
        print_run(run.start, run.len);
        putchar('\n');
    }
}

int main(void)
{
    accepted("init", naldrev_store_init(&store));
    naldrev_field message = add_part(first_part, LENGTH(first_part));
    naldrev_field more = add_part(second_part, LENGTH(second_part));
    accepted("join", naldrev_store_join(&store, message, more, &message));

    uint32_t pattern[LENGTH(sentence) * NALDREV_PATTERN_WIDTH];
    write_pattern(sentence, LENGTH(sentence), pattern);
    const naldrev_request request = {pattern, LENGTH(pattern), NULL, 0};
    uint32_t words[16 * 5 * NALDREV_RUN_WIDTH]; /* for 16 candidates of five names */
    naldrev_slots slots = {words, LENGTH(words), 0, 0};
    accepted("candidates", naldrev_store_candidates(&store, message, &request, &slots));
    for (size_t i = 0; i < slots.count; i++) {
        printf("candidate %zu\n", i + 1);
        print_candidate(&slots, i);
    }
    return 0;
}
