/* Lists e.1 '-' e.2 on the message -- and prints each candidate: e.1 empty first, then e.2 empty. With the library installed (docs/C.md):
     gcc list.c $(pkg-config --cflags --libs naldrev) -o list && ./list */
#include <naldrev_store.h>
#include <stdio.h>

#define LENGTH(a) (sizeof(a) / sizeof((a)[0]))

static int refused(const char *call, size_t number)
{
    fprintf(stderr, "%s: number %zu: %s\n", call, number, naldrev_text(number));
    return 1;
}

static void print_run(const naldrev_store *store, naldrev_run run)
{
    for (size_t i = run.start; i < run.start + run.len; i++)
        putchar((int)store->terms[i * NALDREV_TERM_WIDTH + 1]); /* chars of ASCII alone */
}

int main(void)
{
    const uint8_t names[] = {'1', '2'};
    uint32_t terms[8 * NALDREV_TERM_WIDTH] = {0};
    uint32_t nodes[8 * NALDREV_NODE_WIDTH];
    naldrev_store store = {names, LENGTH(names), terms, LENGTH(terms), 0, nodes, LENGTH(nodes), 0};
    size_t number = naldrev_store_init(&store);
    if (number != NALDREV_OK)
        return refused("init", number);

    for (; store.terms_used < 2; store.terms_used++) {
        uint32_t *term = terms + store.terms_used * NALDREV_TERM_WIDTH;
        term[0] = NALDREV_CHAR;
        term[1] = '-';
    }
    const uint32_t runs[] = {0, 2};
    naldrev_field message = NALDREV_EMPTY_FIELD;
    number = naldrev_store_from_runs(&store, runs, LENGTH(runs), &message);
    if (number != NALDREV_OK)
        return refused("from_runs", number);

    const uint32_t pattern[] = {
        NALDREV_E_VARIABLE, 0,   1, 0, /* e.1: the name's offset and length */
        NALDREV_CHAR,       '-', 0, 0, /* '-' */
        NALDREV_E_VARIABLE, 1,   1, 0, /* e.2 */
    };
    const naldrev_request request = {pattern, LENGTH(pattern), NULL, 0};
    uint32_t words[4 * 2 * NALDREV_RUN_WIDTH]; /* for four candidates of two names */
    naldrev_slots slots = {words, LENGTH(words), 0, 0};
    number = naldrev_store_candidates(&store, message, &request, &slots);
    if (number != NALDREV_OK)
        return refused("candidates", number);
    for (size_t i = 0; i < slots.count; i++) {
        printf("candidate %zu: e.1 = [", i + 1);
        print_run(&store, naldrev_slots_run(&slots, i, 0));
        printf("], e.2 = [");
        print_run(&store, naldrev_slots_run(&slots, i, 1));
        printf("]\n");
    }
    return 0;
}
