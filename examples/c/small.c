/* Small heaps, each of one thread, so that what is free is known to the cell. */
#define _POSIX_C_SOURCE 200809L
#include "hostile.h"
#include <sys/resource.h>

enum { MOST = 4, ROOM = 16, MOST_CYCLES = 8 };

typedef struct {
    heap_col col;
    heap_mut m[MOST];
    uint32_t cells, mutators, boxes;
    uint64_t random;
} small;

/* This call's answer has to be this code. */
#define GIVES(call, code) HOLDS(saw(call) == (code))

/* One whole cycle. This thread answers for all. */
static void cycles(small *s) {
    int how = HEAP_MORE;
    for (int step = 0; step < 1000000; step++) {
        GIVES(heap_step(&s->col, 1 + (uint32_t)pick(&s->random, 30), &how), HEAP_OK);
        if (how == HEAP_ENDED) return;
        for (uint32_t i = 0; how == HEAP_ASKS && i < s->mutators; i++) {
            heap_code code = saw(heap_answer(&s->m[i]));
            HOLDS(code == HEAP_OK || code == HEAP_NOT_IN || code == HEAP_NO_HANDLE);
        }
    }
    HOLDS(!"a cycle ends");
}

static heap_stats looked(small *s) {
    heap_stats stats;
    GIVES(heap_look(&s->col, &stats), HEAP_OK);
    HOLDS(stats.free_about <= s->cells);
    return stats;
}

/* Puts so many cells in front of the list at place HEAP_FIRST, or of none. The last answer. */
static heap_code grows(heap_mut *m, uint64_t *length, uint64_t most) {
    size_t at;
    for (; most > 0; most--) {
        heap_val cell[] = { heap_num(*length),
                            heap_held(m) > HEAP_FIRST ? heap_ref(HEAP_FIRST) : heap_null() };
        heap_code code = saw(heap_make(m, cell, 2, &at));
        if (code != HEAP_OK) return code;
        GIVES(heap_keep(m, HEAP_FIRST, at, 1), HEAP_OK);
        ++*length;
    }
    return HEAP_OK;
}

/* Drops so many from its front. */
static void shrinks(heap_mut *m, uint64_t *length, uint64_t count) {
    for (; count > 0; count--) {
        heap_val rest;
        GIVES(heap_read(m, HEAP_FIRST, 1, &rest), HEAP_OK);
        GIVES(heap_keep(m, HEAP_FIRST, rest.n, rest.tag == HEAP_REF ? 1 : 0), HEAP_OK);
        --*length;
    }
}

/* The list has the numbers below its length, the greatest first. */
static void is_whole(heap_mut *m, uint64_t length) {
    size_t frame = heap_held(m);
    heap_val at = frame > HEAP_FIRST ? heap_ref(HEAP_FIRST) : heap_null(), number;
    while (at.tag == HEAP_REF) {
        GIVES(heap_read(m, at.n, 0, &number), HEAP_OK);
        GIVES(heap_read(m, at.n, 1, &at), HEAP_OK);
        HOLDS(length > 0 && number.tag == HEAP_NUM && number.n == --length);
        if (at.tag != HEAP_REF) break;
        GIVES(heap_keep(m, frame, at.n, 1), HEAP_OK);
        at = heap_ref(frame);
    }
    GIVES(heap_keep(m, frame, 0, 0), HEAP_OK);
    HOLDS(length == 0);
}

/* All cells are used by the list: a maker waits for two cycles at most, and is refused then. */
static void is_full(small *s, heap_mut *m, uint64_t *length) {
    heap_code code = HEAP_WAIT;
    GIVES(heap_duty(&s->col, 0), HEAP_OK);
    HOLDS(grows(m, length, 1) == HEAP_FULL);
    GIVES(heap_duty(&s->col, 1), HEAP_OK);
    for (int i = 0; i < MOST_CYCLES && code == HEAP_WAIT; i++) {
        cycles(s);
        code = grows(m, length, 1);
    }
    HOLDS(code == HEAP_FULL);
    is_whole(m, *length);
}

/* The heap is full. The first fields of a box name boxes, as do all of the anchor; others take no
 * box. */
static void is_sorted(const small *s, heap_mut *m) {
    heap_val it = heap_ref(HEAP_FIRST), none = heap_null(), seven = heap_num(7);
    for (size_t f = 2; f < HEAP_FIELDS; f++) {
        int fits = f < s->boxes;
        heap_val new_box[HEAP_FIELDS] = { none, none, none, none, none };
        new_box[f] = it;
        size_t at = 17;
        GIVES(heap_make(m, new_box, HEAP_FIELDS, &at), fits ? HEAP_FULL : HEAP_BAD_VALUE);
        GIVES(heap_write(m, HEAP_FIRST, f, it), fits ? HEAP_OK : HEAP_BAD_VALUE);
        GIVES(heap_swap(m, HEAP_FIRST, f, it, seven), fits ? HEAP_OK : HEAP_MOVED);
        GIVES(heap_swap(m, HEAP_FIRST, f, fits ? seven : none, it),
              fits ? HEAP_OK : HEAP_BAD_VALUE);
        GIVES(heap_write(m, HEAP_FIRST, f, none), HEAP_OK);
        GIVES(heap_write(m, 0, f, it), HEAP_OK);
        GIVES(heap_write(m, 0, f, none), HEAP_OK);
        HOLDS(at == 17);
    }
}

static void opens(small *s) {
    heap_mut none = HEAP_ZERO;
    GIVES(heap_open(s->cells, s->mutators, 1 + (uint32_t)pick(&s->random, 4), s->boxes,
                    &s->col), HEAP_OK);
    for (uint32_t i = 0; i < s->mutators; i++) {
        GIVES(heap_seat(&s->col, (uint32_t)pick(&s->random, HEAP_LEAST_ROOM), &s->m[i]),
              HEAP_BAD_SIZE);
        GIVES(heap_seat(&s->col, ROOM, &s->m[i]), HEAP_OK);
        GIVES(heap_end(&s->m[i]), HEAP_NOT_IN);
    }
    GIVES(heap_seat(&s->col, ROOM, &none), HEAP_NO_SEAT);
}

/* Leaves and closes, the collector first or last. */
static void closes(small *s) {
    int first = pick(&s->random, 2) == 0;
    size_t at;
    if (first) GIVES(heap_close(&s->col), HEAP_OK);
    for (uint32_t i = 0; i < s->mutators; i++) {
        heap_code code = saw(heap_begin(&s->m[i]));
        HOLDS(code == HEAP_OK || code == HEAP_IS_IN);
        code = saw(heap_make(&s->m[i], NULL, 0, &at));
        HOLDS(code == HEAP_OK || code == HEAP_FULL || (code == HEAP_WAIT && !first));
        GIVES(heap_leave(&s->m[i]), HEAP_IS_IN);
        GIVES(heap_end(&s->m[i]), HEAP_OK);
        GIVES(heap_leave(&s->m[i]), HEAP_OK);
        GIVES(heap_leave(&s->m[i]), HEAP_NO_HANDLE);
    }
    if (!first) GIVES(heap_close(&s->col), HEAP_OK);
    GIVES(heap_close(&s->col), HEAP_NO_HANDLE);
}

static void one_heap(uint64_t seed) {
    small s = { .random = seed };
    uint64_t length = 0;
    s.cells = HEAP_FIRST + 1 + (uint32_t)pick(&s.random, 200);
    s.mutators = 1 + (uint32_t)pick(&s.random, MOST);
    s.boxes = 2 + (uint32_t)pick(&s.random, 4);
    opens(&s);
    heap_mut *m = &s.m[pick(&s.random, s.mutators)];
    GIVES(heap_begin(m), HEAP_OK);
    GIVES(heap_begin(m), HEAP_IS_IN);
    HOLDS(grows(m, &length, s.cells) == HEAP_FULL); /* off duty */
    HOLDS(length == s.cells - HEAP_FIRST);
    is_sorted(&s, m);
    for (int i = 0; i < 3; i++) {
        is_full(&s, m, &length);
        HOLDS(looked(&s).free_about == 0);
        uint64_t before = looked(&s).freed, fewer = 1 + pick(&s.random, length);
        shrinks(m, &length, fewer);
        cycles(&s);
        cycles(&s);
        HOLDS(looked(&s).freed == before + fewer && looked(&s).free_about >= fewer);
        is_whole(m, length);
        HOLDS(grows(m, &length, fewer) == HEAP_OK);
    }
    GIVES(heap_write(m, 0, 1, heap_ref(HEAP_FIRST)), HEAP_OK);
    GIVES(heap_end(m), HEAP_OK);
    for (int i = 0; i < 2; i++) cycles(&s);
    GIVES(heap_begin(m), HEAP_OK); /* which no full heap refuses */
    heap_val list;
    GIVES(heap_read(m, 0, 1, &list), HEAP_OK);
    HOLDS(list.tag == HEAP_REF && list.n == HEAP_FIRST);
    is_whole(m, length);
    closes(&s);
}

void small_heaps(uint64_t seed, int rounds) {
    for (int i = 0; i < rounds; i++) one_heap(seed * 100000 + (uint64_t)i);
}

/* No memory can be had. Before there are threads, and not under a tool that takes memory itself. */
void no_memory(void) {
    struct rlimit was, none;
    heap_col col = HEAP_ZERO;
    HOLDS(getrlimit(RLIMIT_AS, &was) == 0);
    none = was;
    none.rlim_cur = 64 * 1024 * 1024;
    HOLDS(setrlimit(RLIMIT_AS, &none) == 0);
    heap_code code = saw(heap_open(4194304, 1, 1, 5, &col));
    HOLDS(setrlimit(RLIMIT_AS, &was) == 0);
    HOLDS(code == HEAP_NO_MEMORY && col.p == NULL);
}

void all_cycles(void) {
    heap_col col = HEAP_ZERO;
    heap_stats stats;
    heap_code code;
    int how;
    MUST(heap_open(1, 1, 1, 5, &col));
    do code = heap_step(&col, UINT32_MAX, &how); while (code == HEAP_OK);
    MUST(heap_look(&col, &stats));
    HOLDS(code == HEAP_SPENT && stats.cycles == 4000000000U);
    MUST(heap_close(&col));
}
