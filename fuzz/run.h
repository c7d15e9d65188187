/* What a run of either driver is: which cases, and the answers counted by number. */
#ifndef FUZZ_RUN_H
#define FUZZ_RUN_H

#include <stdbool.h>
#include <stdint.h>
#include <stdio.h>
#include <stdlib.h>
#include <string.h>

static uint64_t seed = 1, first_case, cases, current_case, answers[17];

/* Takes --seed N, --cases N or --case I at argv[*i], and moves to its number; false where it is another option. */
static bool takes_option(int argc, char **argv, int *i)
{
    const char *option = argv[*i];
    bool one = strcmp(option, "--case") == 0;
    uint64_t *number = one ? &first_case : strcmp(option, "--cases") == 0 ? &cases : strcmp(option, "--seed") == 0 ? &seed : NULL;
    if (number == NULL || *i + 1 >= argc)
        return false;
    *number = strtoull(argv[++*i], NULL, 10);
    if (one)
        cases = 1;
    return true;
}

static void print_answers(void)
{
    printf("answers:");
    for (size_t i = 0; i < 17; i++)
        if (answers[i] > 0)
            printf(" %zu: %llu", i, (unsigned long long)answers[i]);
    printf("\n");
}

#endif
