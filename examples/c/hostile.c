/* Every call with every misuse that a call can test, in an order that a seed fixes:
 *
 *     hostile [CALLS [THREADS [SEED [tool]]]]
 *     hostile cycles
 *
 * Each thread has its own mutator, and a model of what it may see (model.h). The fields 0 to 3 of
 * the anchor belong to the threads 0 to 3, which write there alone, and read each other's cells.
 * `tool`: it runs under one that takes memory itself, so memory is not limited. `cycles`: it makes
 * all cycles that a heap may have. */
#include "hostile.h"
#include <string.h>

enum { MOST_THREADS = 64, CELLS = 2000 };

static heap_spot spots[MOST_THREADS + 3];
static caller callers[MOST_THREADS];
static collector col = { .spots = spots };
static atomic_uint seen;

heap_code saw(heap_code code) {
    if (!(atomic_load_explicit(&seen, memory_order_relaxed) & CODE(code)))
        (void)atomic_fetch_or(&seen, CODE(code));
    return code;
}

static void calls_of_threads(uint64_t calls, size_t threads, uint64_t seed) {
    pthread_t running[MOST_THREADS];
    heap_spot *dead = &spots[threads], *early = &spots[threads + 1];
    heap_stats stats;
    col.count = threads + 3; /* the last one is the collector's own */
    MUST(heap_open((uint32_t)(CELLS * (threads + 1)), (uint32_t)col.count, 1000, 5, &col.col));
    for (size_t i = 0; i < col.count; i++) MUST(heap_seat(&col.col, MODEL_ROOM, &spots[i].m));
    MUST(heap_duty(&col.col, 1));
    col.thread = start(hostile_collector, &col);
    for (size_t i = 0; i < threads; i++) {
        caller_begins(&callers[i], &spots[i], i, seed, calls / threads);
        running[i] = start(caller_runs, &callers[i]);
    }
    pthread_t one = start(dies_parked, dead), other = start(ends_early, early);
    join(one);
    join(other);
    for (size_t i = 0; i < threads; i++) join(running[i]);
    heap_unpark(dead);
    HOLDS(has_list(&dead->m, LIST_LENGTH) && early->m.p == NULL);
    MUST(heap_end(&dead->m));
    MUST(heap_leave(&dead->m));
    collector_stops(&col);
    MUST(heap_look(&col.col, &stats));
    fprintf(stderr, "cycles %u, freed %llu\n", stats.cycles, (unsigned long long)stats.freed);
    MUST(heap_leave(&spots[col.count - 1].m));
    MUST(heap_close(&col.col));
}

int main(int argc, char **argv) {
    if (argc > 1 && strcmp(argv[1], "cycles") == 0) {
        all_cycles();
        puts("all cycles were made, and no more");
        return 0;
    }
    uint64_t calls = argc > 1 ? strtoull(argv[1], NULL, 10) : 100000;
    size_t threads = argc > 2 ? strtoull(argv[2], NULL, 10) : 4;
    uint64_t seed = argc > 3 ? strtoull(argv[3], NULL, 10) : 1;
    HOLDS(threads >= 1 && threads <= MOST_THREADS);
    if (argc > 4) (void)saw(HEAP_NO_MEMORY);
    else no_memory();
    small_heaps(seed, 50);
    puts("small heaps: as many cells are made, freed and refused as there are");
    calls_of_threads(calls, threads, seed);
    puts("calls in threads: each answer is the model's");
    threads_that_end();
    for (unsigned code = HEAP_OK; code <= HEAP_NOT_ZERO; code++)
        if (!(atomic_load(&seen) & CODE(code))) printf("not seen: code %u\n", code);
    return 0;
}
