/* Calls the library from several threads at once: each on a store of its own, then all of them reading one store. Every answer has to be the
   one that a single thread gets. */
#define _DEFAULT_SOURCE
#include "expect.h"
#include "hostile.h"

#include <pthread.h>
#include <string.h>

enum { THREADS = 8, TURNS = 100, STORE_TERMS = 1300, WORDS = STORE_TERMS * NALDREV_TERM_WIDTH };

/* What a thread has to itself, and whether all its answers were right. */
typedef struct worker {
    hostile *own;
    const hostile *shared;
    uint32_t words[WORDS];
    int right;
    pthread_t thread;
} worker;

static pthread_barrier_t together;

/* Cuts the row in two, joins it again and lists, on a store of the worker's own. */
static int works_alone(worker *w)
{
    naldrev_store *s = &w->own->store;
    naldrev_request request = {w->own->pattern, NALDREV_MAX_PATTERN * NALDREV_PATTERN_WIDTH, w->own->bindings, 2 * NALDREV_BINDING_WIDTH};
    naldrev_slots slots = {w->words, 4 * NALDREV_RUN_WIDTH, 0, 0};
    naldrev_field head = NALDREV_EMPTY_FIELD, tail = NALDREV_EMPTY_FIELD, all = NALDREV_EMPTY_FIELD;
    size_t yes = 0;
    if (hostile_make(w->own, STORE_TERMS) != NALDREV_OK)
        return 0;
    if (naldrev_store_take(s, w->own->right, 5, &head) != NALDREV_OK || naldrev_store_rest(s, w->own->right, 5, &tail) != NALDREV_OK)
        return 0;
    if (naldrev_store_join(s, head, tail, &all) != NALDREV_OK || naldrev_store_equal(s, all, w->own->right, &yes) != NALDREV_OK || !yes)
        return 0;
    if (naldrev_store_candidates(s, all, &request, &slots) != NALDREV_OK || slots.count != 1 || slots.entries != 2)
        return 0;
    naldrev_run e1 = naldrev_slots_run(&slots, 0, 0), e2 = naldrev_slots_run(&slots, 0, 1);
    return e1.start == w->own->row.start && e1.len == w->own->row.len && e2.len == 0;
}

/* Every call that only reads, on the store that all share. */
static int reads_shared(worker *w)
{
    const naldrev_store *s = &w->shared->store;
    const naldrev_run row = w->shared->row, further = {row.start + ROW_STEP, row.len}, chain = {0, row.len};
    const naldrev_request request = {w->shared->pattern, NALDREV_MAX_PATTERN * NALDREV_PATTERN_WIDTH, NULL, 0};
    naldrev_field head = NALDREV_EMPTY_FIELD;
    naldrev_flat flat = {NULL, 0, 0, 0};
    size_t same = 0, starts = 0, other = 1, equal = 0;
    return naldrev_store_compare_runs(s, row, further, &same) == NALDREV_OK && same == 1 &&
           naldrev_store_compare_runs(s, row, chain, &other) == NALDREV_OK && other == 0 &&
           naldrev_store_take(s, w->shared->left, 7, &head) == NALDREV_OK && head.len == 7 &&
           naldrev_store_starts_with(s, w->shared->right, head, &starts) == NALDREV_OK && starts == 1 &&
           naldrev_store_equal(s, w->shared->left, w->shared->right, &equal) == NALDREV_OK && equal == 1 &&
           naldrev_store_flatten(s, w->shared->right, w->words, WORDS, &flat) == NALDREV_OK && flat.start == row.start + ROW_STEP &&
           naldrev_store_name_count(s, &request) == 2;
}

static void *work(void *given)
{
    worker *w = (worker *)given;
    int right = 1;
    pthread_barrier_wait(&together);
    for (int i = 0; i < TURNS; i++)
        right = right && works_alone(w);
    pthread_barrier_wait(&together);
    for (int i = 0; i < TURNS; i++)
        right = right && reads_shared(w);
    w->right = right;
    return NULL;
}

int main(void)
{
    static hostile own[THREADS], shared, before;
    static worker workers[THREADS];
    EXPECT(hostile_make(&shared, STORE_TERMS) == NALDREV_OK);
    before = shared;
    if (pthread_barrier_init(&together, NULL, THREADS) != 0)
        return 2;
    for (int i = 0; i < THREADS; i++) {
        workers[i].own = &own[i];
        workers[i].shared = &shared;
        if (pthread_create(&workers[i].thread, NULL, work, &workers[i]) != 0)
            return 2;
    }
    for (int i = 0; i < THREADS; i++) {
        EXPECT(pthread_join(workers[i].thread, NULL) == 0);
        EXPECT(workers[i].right);
    }
    EXPECT(memcmp(&before, &shared, sizeof shared) == 0);
    return failures > 0;
}
