/* Measures the stack of each call: runs it on a thread whose stack holds a pattern, and looks how far down the pattern was written over.
     stack [SHEET...]
   Inputs are the hostile ones of hostile.h, and the sheets. Prints the bytes of each. Then each call runs on a thread with a stack of
   NALDREV_STACK_BYTES, which is the whole of the thread.
   Exit status: 0 all calls need less than NALDREV_STACK_BYTES; 1 one needs more (or died of it: by a signal), or gave another number than
   expected; 2 something that the program itself needs failed. */
#define _DEFAULT_SOURCE
#include "hostile.h"

#include <pthread.h>
#include <stdio.h>
#include <string.h>
#include <sys/mman.h>

enum { STACK = 4 << 20, PATTERN = 0xA5, SMALL = 1300, TEXTS = 16 };

typedef struct text {
    const char *name;
    uint8_t bytes[NALDREV_SHEET_BYTES + 1];
    size_t len;
} text;

static hostile stores[2]; /* of SMALL terms, and of as many as there can be */
static hostile scratch;   /* what the call that is measured works on */
static text texts[TEXTS];
static size_t text_count;

static void need(int holds, const char *what)
{
    if (holds)
        return;
    fprintf(stderr, "stack: %s\n", what);
    exit(2);
}

/* ---- the calls ---- */

typedef struct job {
    size_t (*call)(void);
    const char *top; /* of the stack, where the call is made */
    size_t number;
} job;

static const text *sheet; /* the input of the calls on sheets */
static uint8_t out[NALDREV_SHEET_BYTES]; /* of a sheet, or of an answer, which is shorter */
static uint32_t words[NALDREV_MAX_TERMS * NALDREV_TERM_WIDTH];
static size_t yes, written;
static naldrev_field made;

static naldrev_request request(void)
{
    naldrev_request r = {scratch.pattern, sizeof scratch.pattern / sizeof scratch.pattern[0], scratch.bindings, 2 * NALDREV_BINDING_WIDTH};
    return r;
}

static naldrev_slots slots(void)
{
    naldrev_slots s = {words, 2 * NALDREV_MAX_ENTRIES * NALDREV_RUN_WIDTH, 0, 0};
    return s;
}

static size_t call_candidates(void)
{
    naldrev_request r = request();
    naldrev_slots s = slots();
    return naldrev_store_candidates(&scratch.store, scratch.right, &r, &s);
}

static size_t call_first(void)
{
    naldrev_request r = request();
    naldrev_slots s = slots();
    return naldrev_store_first(&scratch.store, scratch.right, &r, &s);
}

static size_t call_name_count(void)
{
    naldrev_request r = request();
    return naldrev_store_name_count(&scratch.store, &r) == 2 ? NALDREV_OK : NALDREV_BAD_PATTERN;
}

/* An answer of "no" is a wrong one. */
static size_t if_yes(size_t number) { return number == NALDREV_OK && yes != 1 ? NALDREV_NO_MATCH : number; }

static size_t call_compare_runs(void)
{
    naldrev_run further = {scratch.row.start + ROW_STEP, scratch.row.len};
    return if_yes(naldrev_store_compare_runs(&scratch.store, scratch.row, further, &yes));
}

static size_t call_equal(void) { return if_yes(naldrev_store_equal(&scratch.store, scratch.left, scratch.right, &yes)); }

static size_t call_starts_with(void) { return if_yes(naldrev_store_starts_with(&scratch.store, scratch.left, scratch.right, &yes)); }

static size_t call_take(void) { return naldrev_store_take(&scratch.store, scratch.left, 1, &made); }

static size_t call_rest(void) { return naldrev_store_rest(&scratch.store, scratch.left, 1, &made); }

static size_t call_range(void) { return naldrev_store_range(&scratch.store, scratch.left, 1, 1, &made); }

static size_t call_join(void)
{
    naldrev_field one = {scratch.right.node, 1};
    return naldrev_store_join(&scratch.store, one, one, &made);
}

static size_t call_from_runs(void)
{
    const uint32_t runs[] = {0, 1, 2, 1};
    return naldrev_store_from_runs(&scratch.store, runs, 4, &made);
}

static size_t call_flatten(void)
{
    naldrev_flat flat;
    return naldrev_store_flatten(&scratch.store, scratch.left, words, sizeof words / sizeof words[0], &flat);
}

static size_t call_run_sheet(void) { return naldrev_run_sheet(sheet->bytes, sheet->len, out, sizeof out, &written); }

/* The same, and the number that the sheet's answer starts with. */
static size_t call_run_hostile(void)
{
    char number[11] = "";
    size_t refused = call_run_sheet();
    memcpy(number, out, sizeof number - 1);
    return refused != NALDREV_OK ? refused : (size_t)strtoul(number, NULL, 10);
}

static size_t call_read_sheet(void)
{
    naldrev_sheet read = {NULL, 0, words, NALDREV_SHEET_TERMS * NALDREV_TERM_WIDTH, scratch.pattern,
                          NALDREV_SHEET_PATTERN * NALDREV_PATTERN_WIDTH, scratch.terms, NALDREV_SHEET_RUNS * NALDREV_RUN_WIDTH};
    return naldrev_sheet_read(&read, sheet->bytes, sheet->len);
}

static size_t call_write_sheet(void) { return hostile_sheet(&scratch, out, sizeof out, &written); }

/* ---- measuring ---- */

static void *on_thread(void *given)
{
    job *j = (job *)given;
    char here;
    j->top = &here;
    j->number = j->call();
    return NULL;
}

static void run_on(pthread_attr_t *attributes, job *j)
{
    pthread_t thread;
    need(pthread_create(&thread, attributes, on_thread, j) == 0, "no thread could be started");
    need(pthread_join(thread, NULL) == 0, "a thread could not be joined");
}

/* The bytes below the place where the call is made. */
static size_t measured(job *j)
{
    static uint8_t *stack;
    if (stack == NULL)
        stack = (uint8_t *)mmap(NULL, STACK, PROT_READ | PROT_WRITE, MAP_PRIVATE | MAP_ANONYMOUS, -1, 0);
    need(stack != MAP_FAILED, "no memory for a stack");
    memset(stack, PATTERN, STACK);
    pthread_attr_t attributes;
    need(pthread_attr_init(&attributes) == 0 && pthread_attr_setstack(&attributes, stack, STACK) == 0, "a stack was not taken");
    run_on(&attributes, j);
    pthread_attr_destroy(&attributes);
    const uint8_t *lowest = stack;
    while (*lowest == PATTERN)
        lowest++;
    return (size_t)((const uint8_t *)j->top - lowest);
}

static void run_on_small(job *j)
{
    pthread_attr_t attributes;
    need(pthread_attr_init(&attributes) == 0, "no attributes of a thread");
    need(pthread_attr_setstacksize(&attributes, NALDREV_STACK_BYTES) == 0, "NALDREV_STACK_BYTES is no size for a stack");
    run_on(&attributes, j);
    pthread_attr_destroy(&attributes);
}

/* ---- the table ---- */

static size_t most;
static int wrong;

/* A fresh copy of the store that a call is tried on, if it is tried on one. */
static void lay_out(const hostile *from)
{
    if (from == NULL)
        return;
    scratch = *from;
    scratch.store.terms = scratch.terms;
    scratch.store.nodes = scratch.nodes;
}

static void row(const char *call, size_t (*made_by)(void), const char *input, size_t expected, const hostile *from)
{
    job j = {made_by, NULL, 0};
    lay_out(from);
    size_t bytes = measured(&j), number = j.number;
    printf("%8zu  %s, %s\n", bytes, call, input);
    fflush(stdout);
    most = bytes > most ? bytes : most;
    lay_out(from);
    run_on_small(&j);
    if (number == expected && j.number == expected)
        return;
    wrong = 1;
    fprintf(stderr, "stack: %s, %s: answered %zu and %zu, not %zu\n", call, input, number, j.number, expected);
}

static void rows_of_store(const hostile *from, const char *input)
{
    static const struct {
        const char *name;
        size_t (*made_by)(void);
    } calls[] = {
        {"candidates", call_candidates}, {"first", call_first},     {"name_count", call_name_count},   {"compare_runs", call_compare_runs},
        {"equal", call_equal},           {"take", call_take},       {"starts_with", call_starts_with}, {"flatten", call_flatten},
        {"rest", call_rest},             {"range", call_range},     {"join", call_join},               {"from_runs", call_from_runs},
    };
    for (size_t i = 0; i < sizeof calls / sizeof calls[0]; i++)
        row(calls[i].name, calls[i].made_by, input, NALDREV_OK, from);
}

static void add_text_of(const char *path)
{
    need(text_count < TEXTS, "too many sheets");
    text *t = &texts[text_count++];
    FILE *file = fopen(path, "rb");
    need(file != NULL, path);
    t->name = path;
    t->len = fread(t->bytes, 1, sizeof t->bytes, file);
    fclose(file);
}

int main(int argc, char **argv)
{
    need(hostile_make(&stores[0], SMALL) == NALDREV_OK, "the small store was not made");
    need(hostile_make(&stores[1], NALDREV_MAX_TERMS) == NALDREV_OK, "the large store was not made");
    text *own = &texts[text_count++];
    own->name = "hostile sheet";
    need(hostile_sheet(&scratch, own->bytes, sizeof own->bytes, &own->len) == NALDREV_OK, "the hostile sheet was not made");
    for (int i = 1; i < argc; i++)
        add_text_of(argv[i]);
    sheet = own;
    row("run_sheet", call_run_hostile, own->name, NALDREV_NO_MATCH, NULL);
    row("read_sheet", call_read_sheet, own->name, NALDREV_OK, NULL);
    row("write_sheet", call_write_sheet, own->name, NALDREV_OK, NULL);
    for (sheet++; sheet < texts + text_count; sheet++)
        row("run_sheet", call_run_sheet, sheet->name, NALDREV_OK, NULL);
    rows_of_store(&stores[0], "store of 1,300 terms");
    rows_of_store(&stores[1], "store of 65,536 terms");
    printf("%8zu  at most; NALDREV_STACK_BYTES is %d\n", most, NALDREV_STACK_BYTES);
    return wrong || most > NALDREV_STACK_BYTES;
}
