/* The parts of the hostile test. Each part ends the program if an answer is not as it has to be. */
#ifndef HOSTILE_H
#define HOSTILE_H
#include "model.h"
#include "support.h"

/* Notes that this code was seen, and hands it on. */
heap_code saw(heap_code code);
/* One of the numbers below n; the next of a sequence that its seed fixes. */
uint64_t pick(uint64_t *random, uint64_t n);

/* calling.c: one call on a mutator's handle, with arguments by chance. */
typedef struct {
    heap_spot *spot;
    size_t number;
    uint64_t random, calls, least;
    model model;
} caller;
void caller_begins(caller *c, heap_spot *spot, size_t number, uint64_t seed, uint64_t least);
/* Makes calls until there were `least`; then goes out, leaves, and calls the handle that has ended.
 * For a thread. */
void *caller_runs(void *given);

/* collecting.c: what the collector's handle is asked, by chance, while cycles are made. */
void *hostile_collector(void *given);

/* small.c: heaps that one thread opens, fills, collects and closes. */
void small_heaps(uint64_t seed, int rounds);
void no_memory(void);
/* Makes all the cycles that a heap may have: ten minutes of a processor, so not in the gate. */
void all_cycles(void);

/* ends.c: threads that die parked, end early, never answer. Each of these two makes a list and
 * ends; the first one's has LIST_LENGTH numbers, and is held at its last place. */
enum { LIST_LENGTH = 100 };
void *dies_parked(void *given);
void *ends_early(void *given);
int has_list(heap_mut *m, uint64_t length);
void threads_that_end(void);
#endif
