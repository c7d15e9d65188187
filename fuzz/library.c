/* Fuzzes the static library: calls every export of naldrev.h on stores that are valid, damaged or random, in buffers of the exact lengths.
     library [--seed N] [--cases N] [--case I] [--malloc] [--no-limits]
   A case makes its stores and then makes some calls, each on what the last one left. After each call every lent word is compared: a
   refusal has to leave all of them, but for the settled copy of 10, 11 and 15; an accepted call may write only what docs/REFERENCE.md says.
   Answers have to be among those that the call can give, and what a call built, listed, read or wrote is read again here.
   Buffers stand beside pages that cannot be touched; with --malloc they come from malloc, for valgrind. --case I runs one case alone.
   Exit status: 0 no fault, 1 a fault (with its seed, case and call), 2 bad usage. */
#include "try_fields.h"
#include "try_listings.h"
#include "try_sheets.h"
static bool with_limits = true;

static void run_case(void)
{
    static void (*const tries[])(void) = {try_from_runs, try_join,       try_take,         try_rest,       try_range,       try_starts_with,
                                          try_equal,     try_flatten,    try_compare_runs, try_listing,    try_listing,     try_listing,
                                          try_run_sheet, try_read_sheet, try_write_sheet,  try_name_count};
    seed_case(seed, current_case);
    size_t kind = below(8);
    bool large = with_limits && one_in(1000);
    wild = kind > 4;
    if (large)
        limit_case();
    else if (with_limits && one_in(500))
        sheet_limit_case();
    else if (kind == 7)
        random_case();
    else
        valid_case();
    for (size_t i = kind > 3 && !large ? 1 + below(3) : 0; i > 0; i--)
        damage();
    for (size_t i = 1 + below(10); i > 0; i--) {
        lend_all();
        reset_outs();
        tries[below(sizeof tries / sizeof tries[0])]();
        take_back();
    }
}

static void print_counts(void)
{
    static const char *const called[] = {"from_runs", "join", "take", "rest", "range", "starts_with", "equal", "flatten", "compare_runs",
                                         "match_pattern_with_bindings_candidates", "match_pattern_first", "name_count", "read_sheet",
                                         "write_sheet", "run_sheet"};
    printf("seed %llu: %llu cases, %llu calls, no fault\n", (unsigned long long)seed, (unsigned long long)cases, (unsigned long long)calls);
    printf("calls:");
    for (size_t i = 0; i < 15; i++)
        printf(" %s %llu", called[i], (unsigned long long)calls_of[i]);
    printf("\n");
    print_answers();
}

int main(int argc, char **argv)
{
    cases = 100000;
    for (int i = 1; i < argc; i++) {
        if (strcmp(argv[i], "--malloc") == 0)
            use_malloc = true;
        else if (strcmp(argv[i], "--no-limits") == 0)
            with_limits = false;
        else if (!takes_option(argc, argv, &i)) {
            fprintf(stderr, "usage: library [--seed N] [--cases N] [--case I] [--malloc] [--no-limits]\n");
            return 2;
        }
    }
    static const int signals[] = {SIGSEGV, SIGBUS, SIGILL, SIGFPE, SIGABRT, SIGALRM};
    for (size_t i = 0; i < sizeof signals / sizeof signals[0]; i++)
        signal(signals[i], on_signal);
    make_buffers();
    for (current_case = first_case; current_case < first_case + cases; current_case++) {
        alarm(300);
        run_case();
    }
    print_counts();
    return 0;
}
