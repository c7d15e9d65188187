/* What the library's driver lends: buffers of the exact lengths, compared after each call with what they held before; and how it reports a
   fault. */
#ifndef FUZZ_LENT_H
#define FUZZ_LENT_H

#include "run.h"
#include "sheets.h"

#include <signal.h>
#include <sys/mman.h>
#include <unistd.h>

/* ---- where a fault is ---- */

static const char *current_call = "none";
static uint64_t calls, calls_of[15];

static void where(const char *what)
{
    char text[200];
    int n = snprintf(text, sizeof text, "fault: %s: in %s, seed %llu, case %llu\n", what, current_call, (unsigned long long)seed,
                     (unsigned long long)current_case);
    if (write(2, text, (size_t)n) < 0)
        _exit(1);
}

static void on_signal(int number)
{
    where(number == SIGALRM ? "a case took over 5 minutes" : "the program was stopped by a signal");
    _exit(1);
}

static void dump_words(const char *name, const uint32_t *words, size_t len, size_t width)
{
    fprintf(stderr, "%s (%zu words)", name, len);
    for (size_t i = 0; i < len && i < 400; i++)
        fprintf(stderr, "%s%u", i % width == 0 ? "\n  " : " ", words[i]);
    fputc('\n', stderr);
}

static void fault(const char *what)
{
    where(what);
    fprintf(stderr, "names (%zu bytes) ", draft.names_len);
    fwrite(draft.names, 1, draft.names_len < 400 ? draft.names_len : 400, stderr);
    fprintf(stderr, "\nterms used %zu, nodes used %zu\n", draft.terms_used, draft.nodes_used);
    dump_words("terms", draft.terms, draft.terms_len, NALDREV_TERM_WIDTH);
    dump_words("nodes", draft.nodes, draft.nodes_len, NALDREV_NODE_WIDTH);
    dump_words("runs", draft.runs, draft.runs_len, NALDREV_RUN_WIDTH);
    dump_words("pattern", draft.pattern, draft.pattern_len, NALDREV_PATTERN_WIDTH);
    dump_words("bindings", draft.bindings, draft.bindings_len, NALDREV_BINDING_WIDTH);
    fprintf(stderr, "sheet (%zu bytes)\n", sheet.len);
    fwrite(sheet.at, 1, sheet.len < 4000 ? sheet.len : 4000, stderr);
    exit(1);
}

static void expect(bool holds, const char *what)
{
    if (!holds)
        fault(what);
}

/* ---- buffers of the exact length ---- */

/* The first eight are lent in each call, the others where a sheet is read or written. */
enum { NAMES, TERMS, NODES, RUNS, PATTERN, BINDINGS, SLOTS, WORK, SHEET, OUT, READ_TERMS, READ_PATTERN, READ_RUNS, BUFFERS };

/* What a call on sheets writes to. */
struct Room {
    size_t out_len, terms_len, pattern_len, runs_len;
    uint8_t out[(NALDREV_SHEET_BYTES > NALDREV_ANSWER_BYTES ? NALDREV_SHEET_BYTES : NALDREV_ANSWER_BYTES) + 64];
    uint32_t terms[(NALDREV_SHEET_TERMS + 8) * NALDREV_TERM_WIDTH];
    uint32_t pattern[(NALDREV_SHEET_PATTERN + 8) * NALDREV_PATTERN_WIDTH];
    uint32_t runs[(NALDREV_SHEET_RUNS + 8) * NALDREV_RUN_WIDTH];
};

static struct Room room;

struct Buffer {
    const void *before; /* in the draft, the sheet or the room */
    uint8_t *at;        /* what is lent, or null */
    size_t bytes;
    uint8_t *pages; /* between two pages that cannot be touched */
    size_t room;
};

static struct Buffer buffers[BUFFERS];
static bool use_malloc;

static void make_pages(struct Buffer *b, const void *before, size_t most)
{
    size_t page = (size_t)sysconf(_SC_PAGESIZE);
    b->before = before;
    b->room = (most + page - 1) / page * page;
    uint8_t *all = mmap(NULL, b->room + 2 * page, PROT_NONE, MAP_PRIVATE | MAP_ANONYMOUS, -1, 0);
    if (all == MAP_FAILED || mprotect(all + page, b->room, PROT_READ | PROT_WRITE) != 0) {
        perror("mmap");
        exit(2);
    }
    b->pages = all + page;
}

static void make_buffers(void)
{
    make_pages(&buffers[NAMES], draft.names, sizeof draft.names);
    make_pages(&buffers[TERMS], draft.terms, sizeof draft.terms);
    make_pages(&buffers[NODES], draft.nodes, sizeof draft.nodes);
    make_pages(&buffers[RUNS], draft.runs, sizeof draft.runs);
    make_pages(&buffers[PATTERN], draft.pattern, sizeof draft.pattern);
    make_pages(&buffers[BINDINGS], draft.bindings, sizeof draft.bindings);
    make_pages(&buffers[SLOTS], draft.slots, sizeof draft.slots);
    make_pages(&buffers[WORK], draft.work, sizeof draft.work);
    make_pages(&buffers[SHEET], sheet.at, sizeof sheet.at);
    make_pages(&buffers[OUT], room.out, sizeof room.out);
    make_pages(&buffers[READ_TERMS], room.terms, sizeof room.terms);
    make_pages(&buffers[READ_PATTERN], room.pattern, sizeof room.pattern);
    make_pages(&buffers[READ_RUNS], room.runs, sizeof room.runs);
}

static void *lend(int which, size_t bytes)
{
    struct Buffer *b = &buffers[which];
    b->bytes = bytes;
    if (use_malloc)
        b->at = malloc(bytes);
    else
        b->at = one_in(4) ? b->pages : b->pages + b->room - bytes;
    memcpy(b->at, b->before, bytes);
    return b->at;
}

static const uint8_t *names;
static uint32_t *terms, *nodes, *runs, *pattern, *bindings, *slots, *work;

static void lend_all(void)
{
    names = lend(NAMES, draft.names_len);
    terms = lend(TERMS, draft.terms_len * sizeof(uint32_t));
    nodes = lend(NODES, draft.nodes_len * sizeof(uint32_t));
    runs = lend(RUNS, draft.runs_len * sizeof(uint32_t));
    pattern = lend(PATTERN, draft.pattern_len * sizeof(uint32_t));
    bindings = lend(BINDINGS, draft.bindings_len * sizeof(uint32_t));
    slots = lend(SLOTS, draft.slots_len * sizeof(uint32_t));
    work = lend(WORK, draft.work_len * sizeof(uint32_t));
}

/* What was written goes back to the draft, for the next call. */
static void take_back(void)
{
    for (int i = 0; i < BUFFERS; i++) {
        if (buffers[i].at == NULL)
            continue;
        memcpy((void *)buffers[i].before, buffers[i].at, buffers[i].bytes);
        if (use_malloc)
            free(buffers[i].at);
        buffers[i].at = NULL;
    }
}

/* Every lent word is as before, but for count words of one buffer from a first one on. */
static void only_written(int which, size_t first, size_t count)
{
    for (int i = 0; i < BUFFERS; i++) {
        const struct Buffer *b = &buffers[i];
        if (b->at == NULL)
            continue;
        size_t from = i == which ? first * sizeof(uint32_t) : b->bytes;
        size_t to = i == which ? (first + count) * sizeof(uint32_t) : b->bytes;
        expect(from <= b->bytes && to <= b->bytes, "more was written than there is room for");
        expect(memcmp(b->at, b->before, from) == 0 && memcmp(b->at + to, (const uint8_t *)b->before + to, b->bytes - to) == 0,
               "a lent word is not what it has to be");
    }
}

static void nothing_written(void) { only_written(NAMES, 0, 0); }

#endif
