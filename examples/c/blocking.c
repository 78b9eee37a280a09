/* A thread parks its mutator and blocks in a read of a pipe. Meanwhile the collector, which answers
 * for it, makes whole cycles, and another thread claims the cells that these free. What the blocked
 * thread held, a list that nothing but its place leads to, is there when it goes on. */
#define _POSIX_C_SOURCE 200809L
#include "support.h"
#include <unistd.h>

enum { LENGTH = 500, CYCLES = 5, NUMBER = 0, REST = 1 };

static heap_spot spots[2];
static collector col = { .spots = spots, .count = 2 };
static int ends[2];
static atomic_int blocked, done;

/* Holds a list of the numbers below LENGTH at one place. */
static size_t make_list(heap_mut *m) {
    size_t frame = heap_held(m), it = 0;
    heap_val rest = heap_null();
    for (uint64_t i = 0; i < LENGTH; i++) {
        heap_val cell[] = { heap_num(i), rest };
        MUST(heap_make_wait(m, cell, 2, &it));
        MUST(heap_keep(m, frame, it, 1));
        rest = heap_ref(frame);
    }
    return frame;
}

static uint64_t sum_of(heap_mut *m, size_t list) {
    size_t frame = heap_held(m);
    uint64_t sum = 0;
    heap_val at = heap_ref(list), number;
    while (at.tag == HEAP_REF) {
        MUST(heap_read(m, at.n, NUMBER, &number));
        MUST(heap_read(m, at.n, REST, &at));
        sum += number.n;
        if (at.tag != HEAP_REF) break;
        MUST(heap_keep(m, frame, at.n, 1));
        at = heap_ref(frame);
    }
    MUST(heap_keep(m, frame, 0, 0));
    return sum;
}

static void *block(void *given) {
    heap_mut *m = &((heap_spot *)given)->m;
    char byte = 0;
    MUST(heap_begin(m));
    size_t list = make_list(m);
    heap_park(given);
    atomic_store(&blocked, 1);
    HOLDS(read(ends[0], &byte, 1) == 1);
    heap_unpark(given);
    printf("read '%c'; the list's sum is %llu\n", byte, (unsigned long long)sum_of(m, list));
    MUST(heap_end(m));
    return NULL;
}

/* Makes lists and drops them, so that each cell that is freed is claimed again. */
static void *waste(void *given) {
    heap_mut *m = &((heap_spot *)given)->m;
    MUST(heap_begin(m));
    while (!atomic_load(&done)) {
        size_t frame = heap_held(m);
        (void)make_list(m);
        MUST(heap_keep(m, frame, 0, 0));
    }
    MUST(heap_end(m));
    return NULL;
}

int main(void) {
    HOLDS(pipe(ends) == 0);
    collector_starts(&col, 20000, 64);
    pthread_t one = start(block, &spots[0]), other = start(waste, &spots[1]);
    while (!atomic_load(&blocked)) heap_sleep();
    unsigned from = atomic_load(&col.cycles);
    while (atomic_load(&col.cycles) - from < CYCLES) heap_sleep();
    printf("%d cycles were made while it was blocked\n", (int)CYCLES);
    fflush(stdout);
    HOLDS(write(ends[1], "x", 1) == 1);
    join(one);
    atomic_store(&done, 1);
    join(other);
    collector_ends(&col);
    return 0;
}
