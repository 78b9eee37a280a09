/* Threads push numbers on one stack and pop them. The anchor's field 0 names its top; a cell has a
 * number and the cell below it. A push and a pop are one exchange each. What a thread holds is not
 * freed, so no exchange meets another cell in the place of the one that it expects. */
#include "support.h"

enum { THREADS = 4, ROUNDS = 200, NUMBERS = 100, TOP = 0, NUMBER = 0, BELOW = 1 };

static heap_spot spots[THREADS];
static collector col = { .spots = spots, .count = THREADS };
static uint64_t pushed[THREADS], popped[THREADS], count[THREADS];

static void push(heap_mut *m, uint64_t number) {
    size_t frame = heap_held(m), it = 0;
    heap_code code = HEAP_MOVED;
    while (code == HEAP_MOVED) {
        heap_val top;
        MUST(heap_read(m, 0, TOP, &top));
        heap_val cell[] = { heap_num(number), top };
        MUST(heap_make_wait(m, cell, 2, &it));
        code = heap_swap(m, 0, TOP, top, heap_ref(it));
        HOLDS(code == HEAP_OK || code == HEAP_MOVED);
        MUST(heap_keep(m, frame, 0, 0));
    }
}

/* Pops a number, or answers 0 if the stack is empty. */
static int pop(heap_mut *m, uint64_t *number) {
    size_t frame = heap_held(m);
    for (;;) {
        heap_val top, its, below;
        MUST(heap_answer(m));
        MUST(heap_read(m, 0, TOP, &top));
        if (top.tag == HEAP_NULL) return 0;
        MUST(heap_read(m, top.n, NUMBER, &its));
        MUST(heap_read(m, top.n, BELOW, &below));
        heap_code code = heap_swap(m, 0, TOP, top, below);
        HOLDS(code == HEAP_OK || code == HEAP_MOVED);
        MUST(heap_keep(m, frame, 0, 0));
        if (code == HEAP_MOVED) continue;
        *number = its.n;
        return 1;
    }
}

static void *work(void *given) {
    size_t me = (size_t)((heap_spot *)given - spots);
    heap_mut *m = &spots[me].m;
    uint64_t number;
    MUST(heap_begin(m));
    for (uint64_t round = 0; round < ROUNDS; round++) {
        for (uint64_t i = 0; i < NUMBERS; i++) {
            number = (me * ROUNDS + round) * NUMBERS + i;
            push(m, number);
            pushed[me] += number;
        }
        for (uint64_t i = 0; i < NUMBERS && pop(m, &number); i++) {
            popped[me] += number;
            count[me]++;
        }
    }
    MUST(heap_end(m));
    return NULL;
}

int main(void) {
    pthread_t threads[THREADS];
    uint64_t in = 0, out = 0, all = 0, number;
    collector_starts(&col, 65536, 64);
    for (size_t i = 0; i < THREADS; i++) threads[i] = start(work, &spots[i]);
    for (size_t i = 0; i < THREADS; i++) join(threads[i]);
    MUST(heap_begin(&spots[0].m));
    while (pop(&spots[0].m, &number)) { out += number; all++; }
    MUST(heap_end(&spots[0].m));
    for (size_t i = 0; i < THREADS; i++) { in += pushed[i]; out += popped[i]; all += count[i]; }
    collector_ends(&col);
    printf("%d threads pushed %d numbers, sum %llu\n", (int)THREADS, THREADS * ROUNDS * NUMBERS,
           (unsigned long long)in);
    printf("popped %llu, sum %llu\n", (unsigned long long)all, (unsigned long long)out);
    return in == out ? 0 : 1;
}
