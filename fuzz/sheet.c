/* Fuzzes the program `sheet` with valid, damaged and random sheets.
     sheet PROGRAM [--seed N] [--cases N] [--case I] [--valgrind] [--keep FILE]
   What it prints has to be the answer of docs/SHEET.md, byte for byte (see sheets.h), and naldrev_run_sheet has to write the same. The program has
   to end with status 0. --valgrind runs it under valgrind, --case I runs one case alone, and the input of a fault is written to the file of
   --keep.
   Exit status: 0 no fault, 1 a fault (with its seed and case), 2 bad usage. */
#define _GNU_SOURCE
#include "run.h"
#include "sheets.h"

#include <fcntl.h>
#include <signal.h>
#include <sys/mman.h>
#include <sys/wait.h>
#include <unistd.h>

static struct Text printed;
static uint64_t pieces;
static const char *program, *keep;
static bool use_valgrind;

static void fault(const char *what, int status)
{
    fprintf(stderr, "fault: %s (wait status %d), seed %llu, case %llu, %zu bytes\n", what, status, (unsigned long long)seed,
            (unsigned long long)current_case, sheet.len);
    FILE *f = keep != NULL ? fopen(keep, "wb") : NULL;
    if (f != NULL) {
        fwrite(sheet.at, 1, sheet.len, f);
        fclose(f);
        fprintf(stderr, "the input is in %s\n", keep);
    }
    fprintf(stderr, "expected:\n%.*sprinted:\n%.*s", (int)expected.len, (char *)expected.at, (int)printed.len, (char *)printed.at);
    exit(1);
}

/* ---- running the program ---- */

static int input_file, output_file;

static void check(bool holds, const char *what)
{
    if (!holds) {
        perror(what);
        exit(2);
    }
}

static void become_program(int input)
{
    dup2(input, 0);
    dup2(output_file, 1);
    alarm(300);
    if (use_valgrind)
        execlp("valgrind", "valgrind", "-q", "--error-exitcode=9", program, (char *)NULL);
    else
        execl(program, program, (char *)NULL);
    _exit(127);
}

static void write_bytes(int to, size_t from, size_t end)
{
    while (from < end) {
        ssize_t n = write(to, sheet.at + from, end - from);
        if (n <= 0)
            return;
        from += (size_t)n;
    }
}

/* The text in two pieces, so that the program's first read is short. */
static pid_t start_with_pipe(void)
{
    int ends[2];
    size_t half = below(sheet.len < 30000 ? sheet.len : 30000);
    check(pipe2(ends, O_CLOEXEC) == 0, "pipe");
    write_bytes(ends[1], 0, half);
    pid_t child = fork();
    if (child == 0)
        become_program(ends[0]);
    close(ends[0]);
    usleep(3000);
    write_bytes(ends[1], half, sheet.len);
    close(ends[1]);
    pieces++;
    return child;
}

static pid_t start_with_file(void)
{
    check(ftruncate(input_file, 0) == 0 && lseek(input_file, 0, SEEK_SET) == 0, "input");
    write_bytes(input_file, 0, sheet.len);
    check(lseek(input_file, 0, SEEK_SET) == 0, "input");
    pid_t child = fork();
    if (child == 0)
        become_program(input_file);
    return child;
}

static void run_program(void)
{
    int status = 0;
    check(ftruncate(output_file, 0) == 0 && lseek(output_file, 0, SEEK_SET) == 0, "output");
    pid_t child = one_in(16) ? start_with_pipe() : start_with_file();
    check(child > 0 && waitpid(child, &status, 0) == child, "running the program");
    ssize_t n = pread(output_file, printed.at, sizeof printed.at, 0);
    printed.len = n > 0 ? (size_t)n : 0;
    if (status != 0)
        fault("the program did not end with status 0", status);
    if (printed.len != expected.len || memcmp(printed.at, expected.at, printed.len) != 0)
        fault("the program printed something else", status);
}

/* The library writes what the program printed. */
static void run_library(void)
{
    static uint8_t out[NALDREV_ANSWER_BYTES];
    size_t written = 0;
    size_t number = naldrev_run_sheet(sheet.at, sheet.len, out, sizeof out, &written);
    if (number != 0 || written != printed.len || memcmp(out, printed.at, written) != 0)
        fault("naldrev_run_sheet wrote something else", (int)number);
}

/* ---- a case ---- */

/* A variable at this record, for patterns of very many names. */
static void put_variable(size_t at)
{
    size_t o, n;
    if (find_text(NALDREV_T_VARIABLE, &o, &n))
        put(draft.pattern + at, NALDREV_T_VARIABLE, o, n, 0);
}

static void make_parts(void)
{
    bool long_lists = one_in(20);
    make_names(long_lists ? below(NALDREV_SHEET_NAMES + 2) : below(24));
    make_terms(long_lists ? below(NALDREV_SHEET_TERMS + 2) : below(14));
    make_pattern(long_lists ? below(NALDREV_MAX_PATTERN + 2) : below(9), long_lists ? 2 : 3);
    make_runs(long_lists ? below(NALDREV_MAX_RUNS + 2) : 1 + below(4));
    /* The whole store as the field, for more patterns to fit. */
    if (draft.runs_len >= 2 && one_in(3)) {
        draft.runs[0] = 0;
        draft.runs[1] = (uint32_t)draft.terms_used;
    }
    if (long_lists && one_in(3))
        for (size_t i = 0; i < draft.pattern_len; i += NALDREV_PATTERN_WIDTH)
            put_variable(i);
    else if (draft.runs_len >= 2 && one_in(2))
        make_fitting_pattern(draft.runs[0], draft.runs[1], long_lists ? 2 : 3);
}

static void write_draft(void) { write_sheet(draft.terms_used, draft.names_len); }

static void damage_records(void)
{
    for (size_t i = 1 + below(3); i > 0; i--)
        switch (below(5)) {
        case 0: damage_words(draft.terms, draft.terms_used * NALDREV_TERM_WIDTH); break;
        case 1: damage_fifth(draft.terms_used); break;
        case 2: damage_words(draft.pattern, draft.pattern_len); break;
        case 3: damage_words(draft.runs, draft.runs_len); break;
        default: draft.names[below(draft.names_len)] = (uint8_t)next();
        }
    write_draft();
}

static void random_records(void)
{
    random_words(draft.terms, draft.terms_used * NALDREV_TERM_WIDTH);
    random_words(draft.pattern, draft.pattern_len);
    random_words(draft.runs, draft.runs_len);
    write_draft();
}

static void make_sheet(void)
{
    make_parts();
    write_draft();
    size_t change = below(20);
    if (change == 0)
        damage_records();
    else if (change == 1)
        random_records();
    else if (change < 2 + TEXT_CHANGES)
        change_text(change - 2);
}

static void run_case(void)
{
    seed_case(seed, current_case);
    make_sheet();
    answer();
    size_t number = strtoul((char *)expected.at, NULL, 10);
    answers[number < 17 ? number : 0]++;
    run_program();
    run_library();
}

int main(int argc, char **argv)
{
    cases = 1000;
    program = argc > 1 ? argv[1] : NULL;
    for (int i = 2; i < argc; i++) {
        if (strcmp(argv[i], "--valgrind") == 0)
            use_valgrind = true;
        else if (strcmp(argv[i], "--keep") == 0 && i + 1 < argc)
            keep = argv[++i];
        else if (!takes_option(argc, argv, &i))
            program = NULL;
    }
    if (program == NULL) {
        fprintf(stderr, "usage: sheet PROGRAM [--seed N] [--cases N] [--case I] [--valgrind] [--keep FILE]\n");
        return 2;
    }
    signal(SIGPIPE, SIG_IGN);
    input_file = memfd_create("input", MFD_CLOEXEC);
    output_file = memfd_create("output", MFD_CLOEXEC);
    check(input_file >= 0 && output_file >= 0, "memfd_create");
    for (current_case = first_case; current_case < first_case + cases; current_case++)
        run_case();
    printf("seed %llu: %llu sheets, %llu of them in two pieces, no fault\n", (unsigned long long)seed, (unsigned long long)cases,
           (unsigned long long)pieces);
    print_answers();
    return 0;
}
