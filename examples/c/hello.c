/* A list of three numbers, made and read back while a thread of its own runs the collector. */
#include "heap.h"
#include <pthread.h>
#include <stdio.h>
#include <stdlib.h>

static heap_col col = HEAP_ZERO;
static heap_mut m = HEAP_ZERO;
static atomic_int over;

/* Every call answers a code. */
static void must(heap_code code) {
    if (code != HEAP_OK) { fprintf(stderr, "code %d\n", (int)code); exit(1); }
}

/* Makes steps until the program is over. */
static void *collect(void *unused) {
    int how = HEAP_MORE;
    while (!atomic_load(&over)) {
        must(heap_step(&col, 500, &how));
        if (how != HEAP_MORE) heap_sleep();
    }
    return unused;
}

int main(void) {
    pthread_t collector;
    must(heap_open(1000, 1, 100, 5, &col));
    must(heap_seat(&col, 100, &m));
    must(heap_duty(&col, 1));
    if (pthread_create(&collector, NULL, collect, NULL) != 0) return 1;

    must(heap_begin(&m));
    size_t frame = heap_held(&m), list = 0;
    heap_val rest = heap_null(), fields[HEAP_FIELDS];
    for (uint64_t i = 3; i >= 1; i--) { /* a cell: its number, and the rest of the list */
        heap_val cell[] = { heap_num(i), rest };
        must(heap_make_wait(&m, cell, 2, &list));
        rest = heap_ref(list);
    }
    must(heap_write(&m, 0, 0, rest));     /* the anchor names it, */
    must(heap_keep(&m, frame, 0, 0));     /* so that it stays when its places are dropped */
    must(heap_read(&m, 0, 0, &rest));
    while (rest.tag == HEAP_REF) {
        must(heap_read_all(&m, rest.n, fields, HEAP_FIELDS));
        printf("%d\n", (int)fields[0].n);
        rest = fields[1];
        must(heap_answer(&m));
    }
    must(heap_end(&m));

    atomic_store(&over, 1);
    pthread_join(collector, NULL);
    must(heap_leave(&m));
    must(heap_close(&col));
    return 0;
}
