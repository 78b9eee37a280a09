/* What the calls of private records take, in nanoseconds of the thread's processor time: a line for
 * each, the best of so many rounds. One thread, and no collector.
 *
 *     record_calls [ROUNDS]
 */
#define _POSIX_C_SOURCE 200809L
#include "../../examples/c/figures.h"
#include "../../examples/c/support.h"

enum { RECORDS = 8192, TIMES = 100, CELLS = 4000000, ROOM = 40000, ROOTS = 100 };

static heap_mut m = HEAP_ZERO;
static heap_val old[2]; /* two records that others name */
static heap_val subject;
static size_t box;

static uint64_t now(void) { return nanoseconds(CLOCK_THREAD_CPUTIME_ID); }

/* Lets all private records go. */
static void empties(void) {
    MUST(heap_pop(&m, heap_roots(&m)));
    MUST(heap_share(&m, 2, RECORDS));
}

static heap_val made(heap_val a, heap_val b, heap_val c, heap_val d, heap_val e) {
    heap_val it = heap_record(&m, a, b, c, d, e);
    MUST(heap_why(it));
    return it;
}

static heap_val number_of(uint64_t n) {
    return made(heap_num(n), heap_num(n), heap_num(n), heap_num(n), heap_num(n));
}

/* Private records, each of which names the one before it: the last one. */
static heap_val chain(size_t length) {
    heap_val it = heap_null();
    for (size_t i = 0; i < length; i++)
        it = made(it, heap_num(i), heap_null(), heap_null(), heap_null());
    return it;
}

/* Each of these is one call, or a few, of the kind that its row names. */
static void nothing(void) { (void)heap_roots(&m); }
static void reserves(void) { MUST(heap_reserve(&m, 2, 1, 1)); }
static void makes_empty(void) { MUST(heap_why(heap_new(&m, 0, 0, 0, 0, 0, 0))); }
static void makes_numbers(void) { (void)number_of(7); }
static void makes_naming(void) {
    (void)made(old[0], old[1], heap_num(1), heap_num(2), heap_null());
}
static void gets(void) {
    heap_val out;
    MUST(heap_get(&m, subject, 1, &out));
}
static void gets_cell(void) {
    size_t held = heap_held(&m);
    heap_val out;
    MUST(heap_get(&m, subject, 0, &out));
    MUST(heap_release(&m, held));
}
static void gets_all(void) {
    size_t held = heap_held(&m);
    heap_val out[HEAP_FIELDS];
    MUST(heap_get_all(&m, subject, out, HEAP_FIELDS));
    MUST(heap_release(&m, held));
}
static void pushes(void) {
    MUST(heap_push(&m, subject));
    MUST(heap_pop(&m, 1));
}
static void roots(void) {
    heap_val out;
    MUST(heap_root(&m, 0, &out));
}
static void puts_again(void) { MUST(heap_put(&m, box, 1, subject)); }
static void writes(void) { MUST(heap_write(&m, box, 1, heap_num(5))); }

static int rounds = 7;

/* times: how often one after the other, all in one private heap. */
static void row(const char *name, void (*call)(void), size_t times, int is_shared) {
    uint64_t best = UINT64_MAX;
    for (int round = 0; round < rounds; round++) {
        uint64_t took = 0;
        for (int i = 0; i < TIMES; i++) {
            empties();
            old[0] = number_of(1);
            old[1] = number_of(2);
            subject = made(old[0], heap_num(3), old[1], heap_num(4), heap_null());
            MUST(heap_push(&m, subject));
            if (is_shared) {
                MUST(heap_share(&m, 2, RECORDS));
                MUST(heap_root(&m, 0, &subject));
                MUST(heap_get(&m, subject, 0, &old[0]));
                MUST(heap_get(&m, subject, 2, &old[1]));
            }
            uint64_t from = now();
            for (size_t k = 0; k < times; k++) call();
            took += now() - from;
        }
        if (took < best) best = took;
    }
    printf("%s: %.1f\n", name, (double)best / TIMES / (double)times);
}

/* A move of a chain of so many records and of as much garbage, for each record of the chain: by
 * ageing, where most is 0, or a share in slices of so many. */
static void moves(const char *name, uint32_t length, size_t most) {
    uint64_t best = UINT64_MAX;
    for (int round = 0; round < rounds; round++) {
        uint64_t took = 0;
        for (int i = 0; i < 10; i++) {
            heap_code code;
            empties();
            MUST(heap_push(&m, chain(length)));
            (void)chain(length);
            uint64_t from = now();
            do code = most ? heap_share(&m, 2, most) : heap_reserve(&m, 2, RECORDS - length, 0);
            while (code == HEAP_PART);
            MUST(code);
            took += now() - from;
        }
        if (took < best) best = took;
    }
    printf("%s: %.1f\n", name, (double)best / 10 / (double)length);
}

int main(int argc, char **argv) {
    heap_col col = HEAP_ZERO;
    if (argc > 1) rounds = atoi(argv[1]);
    MUST(heap_open(CELLS, 1, 1000, 1, &col));
    MUST(heap_seat(&col, ROOM, &m));
    MUST(heap_records(&m, RECORDS, ROOTS));
    MUST(heap_begin(&m));
    MUST(heap_make(&m, NULL, 0, &box));
    row("nothing (heap_roots)", nothing, 8000, 0);
    row("reserve, nothing to do", reserves, 8000, 0);
    row("new of nulls", makes_empty, 8000, 0);
    row("new of five numbers", makes_numbers, 8000, 0);
    row("new of two records and two numbers", makes_naming, 8000, 0);
    row("new of two shared records and two numbers", makes_naming, 8000, 1);
    row("get of a number, private", gets, 8000, 0);
    row("get of a number, shared", gets, 8000, 1);
    row("get of a cell, private, and release", gets_cell, 8000, 0);
    row("get of a cell, shared, and release", gets_cell, 8000, 1);
    row("get_all, private, and release", gets_all, 8000, 0);
    row("get_all, shared, and release", gets_all, 8000, 1);
    row("push and pop, private", pushes, 8000, 0);
    row("root", roots, 8000, 0);
    row("put of a record that has a copy", puts_again, 8000, 0);
    row("write of a number into a box", writes, 8000, 0);
    moves("age, a survivor of 4,000", 4000, 0);
    moves("share, a record of 1,000", 1000, RECORDS);
    moves("share, a record of 4,000", 4000, RECORDS);
    moves("share, a record of 4,000 in slices of 500", 4000, 500);
    MUST(heap_end(&m));
    MUST(heap_leave(&m));
    MUST(heap_close(&col));
    return 0;
}
