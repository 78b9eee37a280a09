/* Threads that die parked, that end early, that never answer. The main thread makes the steps. */
#include "hostile.h"

enum { CELLS = 3000, EARLY = 500, STEPS = 1000, PARKED = 0, ENDED, SILENT, WORKER,
       SPOTS };

static heap_spot spots[SPOTS];
static heap_col col = HEAP_ZERO;

/* Holds a list of the numbers below `length` at its last place. */
static void makes_list(heap_mut *m, uint64_t length) {
    size_t frame = heap_held(m), it = 0;
    heap_val rest = heap_null();
    for (uint64_t i = 0; i < length; i++) {
        heap_val cell[] = { heap_num(i), rest };
        MUST(heap_make_wait(m, cell, 2, &it));
        MUST(heap_keep(m, frame, it, 1));
        rest = heap_ref(frame);
    }
}

int has_list(heap_mut *m, uint64_t length) {
    size_t frame = heap_held(m);
    heap_val at = heap_ref(frame - 1), number;
    while (at.tag == HEAP_REF) {
        MUST(heap_read(m, at.n, 0, &number));
        MUST(heap_read(m, at.n, 1, &at));
        if (length == 0 || number.tag != HEAP_NUM || number.n != --length) return 0;
        if (at.tag != HEAP_REF) break;
        MUST(heap_keep(m, frame, at.n, 1));
        at = heap_ref(frame);
    }
    MUST(heap_keep(m, frame, 0, 0));
    return length == 0;
}

void *dies_parked(void *given) {
    heap_spot *spot = given;
    MUST(heap_begin(&spot->m));
    makes_list(&spot->m, LIST_LENGTH);
    heap_park(spot);
    return NULL;
}

void *ends_early(void *given) {
    heap_spot *spot = given;
    MUST(heap_begin(&spot->m));
    makes_list(&spot->m, EARLY);
    MUST(heap_end(&spot->m));
    MUST(heap_leave(&spot->m));
    return NULL;
}

static void *never_answers(void *given) {
    heap_spot *spot = given;
    MUST(heap_begin(&spot->m));
    makes_list(&spot->m, LIST_LENGTH);
    return NULL;
}

/* A thread that goes on while one never answers: it reads and writes, and waits for cells. */
static void *goes_on(void *given) {
    heap_spot *spot = given;
    heap_mut *m = &spot->m;
    size_t frame, it = 0, waits = 0;
    MUST(heap_begin(m));
    makes_list(m, LIST_LENGTH);
    frame = heap_held(m);
    for (int i = 0; i < 2 * CELLS; i++) {
        heap_val number = heap_num((uint64_t)i), read = heap_null();
        heap_code code = saw(heap_make(m, &number, 1, &it));
        HOLDS(code == HEAP_OK || code == HEAP_WAIT);
        waits += code == HEAP_WAIT;
        MUST(heap_keep(m, frame, 0, 0));
        MUST(heap_write(m, 0, 2, number));
        MUST(heap_swap(m, 0, 2, number, heap_ref(frame - 1)));
        MUST(heap_read(m, 0, 2, &read));
        HOLDS(read.tag == HEAP_REF);
        MUST(heap_keep(m, frame, 0, 0));
        MUST(heap_answer(m));
    }
    HOLDS(waits > 0 && has_list(m, LIST_LENGTH));
    MUST(heap_end(m));
    return NULL;
}

static heap_stats looked(void) {
    heap_stats stats;
    MUST(heap_look(&col, &stats));
    return stats;
}

/* Whether so many cycles end within STEPS steps that ask. */
static int cycles(int count) {
    int how = HEAP_MORE;
    for (int asked = 0; count > 0 && asked < STEPS;) {
        MUST(heap_step(&col, 500, &how));
        if (how == HEAP_ENDED) count--;
        if (how != HEAP_ASKS) continue;
        heap_serve(spots, SPOTS);
        asked++;
    }
    return count == 0;
}

/* Fills the heap and drops it, so that each cell that is freed is claimed again. */
static void wastes(heap_mut *m) {
    size_t it;
    MUST(heap_begin(m));
    while (heap_make(m, NULL, 0, &it) == HEAP_OK) MUST(heap_keep(m, HEAP_FIRST, 0, 0));
    MUST(heap_end(m));
}

static void parked(void) {
    join(start(dies_parked, &spots[PARKED]));
    for (int i = 0; i < 4; i++) {
        wastes(&spots[WORKER].m);
        HOLDS(cycles(2));
    }
    heap_unpark(&spots[PARKED]);
    HOLDS(has_list(&spots[PARKED].m, LIST_LENGTH));
    heap_park(&spots[PARKED]);
    puts("a thread died parked: cycles end, and its list is there");
}

static void early(void) {
    join(start(ends_early, &spots[ENDED]));
    uint64_t before = looked().freed;
    HOLDS(cycles(2) && looked().freed >= before + EARLY);
    HOLDS(saw(heap_answer(&spots[ENDED].m)) == HEAP_NO_HANDLE);
    puts("a thread ended early: its cells are freed");
}

static void silent(void) {
    join(start(never_answers, &spots[SILENT]));
    uint32_t before = looked().cycles;
    HOLDS(!cycles(2));
    heap_stats stats = looked();
    HOLDS(stats.asks == 1 && stats.heard == SILENT && stats.cycles <= before + 1);
    puts("a thread never answers: heap_look names it, and no cycle ends");
    join(start(goes_on, &spots[WORKER]));
    HOLDS(!cycles(1) && looked().cycles == stats.cycles);
    puts("the others read, write and make cells, and wait when there is none");
    HOLDS(has_list(&spots[SILENT].m, LIST_LENGTH)); /* the thread was joined: its handle is here */
    while (!cycles(1)) MUST(heap_answer(&spots[SILENT].m));
    HOLDS(looked().cycles > stats.cycles);
    puts("when it is answered for, the cycle ends; it holds what it held");
}

void threads_that_end(void) {
    MUST(heap_open(CELLS, SPOTS, 64, 5, &col));
    for (int i = 0; i < SPOTS; i++) MUST(heap_seat(&col, 64, &spots[i].m));
    MUST(heap_duty(&col, 1));
    parked();
    early();
    silent();
    MUST(heap_close(&col));
    heap_unpark(&spots[PARKED]);
    HOLDS(has_list(&spots[PARKED].m, LIST_LENGTH) && has_list(&spots[SILENT].m, LIST_LENGTH));
    puts("the collector's handle is closed: what is held is still there");
    for (int i = 0; i < SPOTS; i++) {
        if (i == ENDED) continue;
        if (i != WORKER) MUST(heap_end(&spots[i].m));
        MUST(heap_leave(&spots[i].m));
    }
}
