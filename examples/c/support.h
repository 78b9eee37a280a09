/* What the programs share: a call that has to be OK, the collector's thread, and threads. */
#ifndef SUPPORT_H
#define SUPPORT_H
#include "heap.h"
#include <pthread.h>
#include <stdio.h>
#include <stdlib.h>

/* Ends the program unless the call answers HEAP_OK. */
#define MUST(call) must((call), #call, __FILE__, __LINE__)
static inline void must(heap_code code, const char *call, const char *file, int line) {
    if (code == HEAP_OK) return;
    fprintf(stderr, "%s:%d: %s answered %d\n", file, line, call, (int)code);
    exit(1);
}

/* Ends the program unless this holds. */
#define HOLDS(fact) ((fact) ? (void)0 : fails(#fact, __FILE__, __LINE__))
static inline void fails(const char *fact, const char *file, int line) {
    fprintf(stderr, "%s:%d: not so: %s\n", file, line, fact);
    exit(1);
}

/* Makes cycles in a thread of its own, and answers for who is parked. */
typedef struct {
    heap_col col;
    heap_spot *spots;
    size_t count;
    uint32_t boxes;          /* 0: all five */
    uint32_t records, roots; /* of each private heap, if there are any */
    int rests;               /* until a quarter of the blocks with free cells is used up */
    uint32_t moves;          /* in a step */
    atomic_int over;
    atomic_uint cycles;      /* as heap_look tells, after each cycle */
    pthread_t thread;
} collector;

static inline void *collector_runs(void *given) {
    collector *c = given;
    heap_stats last, now;
    int how = HEAP_ENDED;
    MUST(heap_look(&c->col, &last));
    while (!atomic_load(&c->over)) {
        MUST(heap_look(&c->col, &now));
        if (how == HEAP_ENDED && c->rests && now.free_about > last.free_about / 4 * 3) {
            heap_sleep();
            continue;
        }
        MUST(heap_step(&c->col, c->moves, &how));
        if (how == HEAP_ENDED) {
            MUST(heap_look(&c->col, &last));
            atomic_store(&c->cycles, last.cycles);
        }
        if (how != HEAP_ASKS) continue;
        heap_serve(c->spots, c->count);
        thrd_yield();
    }
    return NULL;
}

static inline pthread_t start(void *(*run)(void *), void *given) {
    pthread_t thread;
    HOLDS(pthread_create(&thread, NULL, run, given) == 0);
    return thread;
}

static inline void join(pthread_t thread) { HOLDS(pthread_join(thread, NULL) == 0); }

/* Opens a heap with a seat for each spot, and starts the collector's thread. */
static inline void collector_starts(collector *c, uint32_t cells, uint32_t room) {
    uint32_t boxes = c->boxes ? c->boxes : HEAP_FIELDS;
    MUST(heap_open(cells, (uint32_t)c->count, 65536, boxes, &c->col));
    for (size_t i = 0; i < c->count; i++) {
        MUST(heap_seat(&c->col, room, &c->spots[i].m));
        if (c->records) MUST(heap_records(&c->spots[i].m, c->records, c->roots));
    }
    MUST(heap_duty(&c->col, 1));
    c->moves = 500;
    c->thread = start(collector_runs, c);
}

/* Ends the collector's thread. Its handle is the caller's again. */
static inline void collector_stops(collector *c) {
    atomic_store(&c->over, 1);
    join(c->thread);
}

/* Ends all: each mutator is out. */
static inline void collector_ends(collector *c) {
    collector_stops(c);
    for (size_t i = 0; i < c->count; i++) MUST(heap_leave(&c->spots[i].m));
    MUST(heap_close(&c->col));
}
#endif
