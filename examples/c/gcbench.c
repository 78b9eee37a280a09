/* GCBench (Ellis, Kovac, Boehm): binary trees that die young, alongside one that stays. Half of
 * them are made from the root down, by writes into cells that are there, half from the leaves up.
 * One file measures three makers of cells: heap.h; with -DGCBENCH_MALLOC malloc, and free of each
 * tree; with -DGCBENCH_BDWGC the Boehm-Demers-Weiser collector (GC_ENABLE_INCREMENTAL=1 in its
 * environment: in increments).
 *
 *     gcbench [THREADS [DEPTH [CELLS [clocks]]]]
 *
 * DEPTH is that of the first tree. The figures go to stderr, what is the same each time to stdout.
 * With `clocks` each call that makes a cell is timed, which costs more than the call. */
#define _POSIX_C_SOURCE 200809L
#ifdef GCBENCH_BDWGC
#define GC_THREADS
#include <gc.h>
#endif
#include "figures.h"
#include "support.h"

enum { SHORTEST = 4, MOST_THREADS = 64, ROOM = 256, LEFT = 0, RIGHT = 1 };

typedef struct {
    heap_spot *spot;
    int number;
    uint64_t made;
    longest most;
} worker;

static heap_spot spots[MOST_THREADS];
static worker workers[MOST_THREADS];
static int threads = 1, depth = 18;
static uint32_t cells = 1048576;

static uint64_t size_of(int of_depth) { return (UINT64_C(2) << of_depth) - 1; }

#if defined GCBENCH_MALLOC || defined GCBENCH_BDWGC
typedef struct node { struct node *child[2]; } node;
typedef node *tree;

static node *make(worker *w, node *left, node *right) {
    uint64_t from = begins();
#ifdef GCBENCH_BDWGC
    node *it = GC_MALLOC(sizeof *it);
#else
    node *it = malloc(sizeof *it);
#endif
    ends(from, &w->most.call);
    HOLDS(it != NULL);
    it->child[LEFT] = left;
    it->child[RIGHT] = right;
    w->made++;
    return it;
}

static void drop(worker *w, tree it) {
    (void)w;
#ifdef GCBENCH_MALLOC
    if (it->child[LEFT]) drop(w, it->child[LEFT]);
    if (it->child[RIGHT]) drop(w, it->child[RIGHT]);
    free(it);
#else
    (void)it;
#endif
}

static tree from_leaves(worker *w, int of_depth) {
    if (of_depth == 0) return make(w, NULL, NULL);
    tree left = from_leaves(w, of_depth - 1), right = from_leaves(w, of_depth - 1);
    return make(w, left, right);
}

static void fill(worker *w, int of_depth, tree it) {
    if (of_depth == 0) return;
    it->child[LEFT] = make(w, NULL, NULL);
    it->child[RIGHT] = make(w, NULL, NULL);
    fill(w, of_depth - 1, it->child[LEFT]);
    fill(w, of_depth - 1, it->child[RIGHT]);
}

static tree leaf(worker *w) { return make(w, NULL, NULL); }

static uint64_t count(worker *w, tree it) {
    return 1 + (it->child[LEFT] ? count(w, it->child[LEFT]) : 0)
             + (it->child[RIGHT] ? count(w, it->child[RIGHT]) : 0);
}

static void opens(void) {
#ifdef GCBENCH_BDWGC
    GC_INIT();
#endif
}
static void comes_in(worker *w) { (void)w; }
static void goes_out(worker *w) { (void)w; }
static void closes(void) {}
static void parks(worker *w) { (void)w; }
static void unparks(worker *w) { (void)w; }
#else
typedef size_t tree; /* its place */
static collector col = { .spots = spots };

/* Makes a cell, drops the places from `keep` on, and holds it there. */
static tree make(worker *w, size_t keep, const heap_val *children, size_t n) {
    heap_mut *m = &w->spot->m;
    size_t it = 0;
    uint64_t from = begins();
    heap_code code = heap_make_at(m, keep, children, n, &it);
    if (code == HEAP_OK) ends(from, &w->most.call);
    if (code != HEAP_OK) {
        code = heap_make_at_wait(m, keep, children, n, &it);
        ends(from, &w->most.wait);
    }
    MUST(code);
    w->made++;
    return it;
}

static tree leaf(worker *w) { return make(w, heap_held(&w->spot->m), NULL, 0); }

static void drop(worker *w, tree it) { MUST(heap_keep(&w->spot->m, it, 0, 0)); }

static tree from_leaves(worker *w, int of_depth) {
    if (of_depth == 0) return leaf(w);
    tree left = from_leaves(w, of_depth - 1), right = from_leaves(w, of_depth - 1);
    heap_val children[] = { heap_ref(left), heap_ref(right) };
    return make(w, left, children, 2);
}

static void fill(worker *w, int of_depth, tree it) {
    if (of_depth == 0) return;
    heap_mut *m = &w->spot->m;
    tree left = leaf(w), right = leaf(w);
    MUST(heap_write(m, it, LEFT, heap_ref(left)));
    MUST(heap_write(m, it, RIGHT, heap_ref(right)));
    fill(w, of_depth - 1, left);
    fill(w, of_depth - 1, right);
    drop(w, left);
}

static uint64_t count(worker *w, tree it) {
    heap_mut *m = &w->spot->m;
    size_t frame = heap_held(m);
    heap_val fields[HEAP_FIELDS];
    MUST(heap_read_all(m, it, fields, HEAP_FIELDS));
    MUST(heap_answer(m));
    uint64_t found = 1;
    for (int i = LEFT; i <= RIGHT; i++)
        if (fields[i].tag == HEAP_REF) found += count(w, fields[i].n);
    drop(w, frame);
    return found;
}

static void opens(void) {
    col.count = (size_t)threads;
    collector_starts(&col, cells, ROOM);
}
static void comes_in(worker *w) { MUST(heap_begin(&w->spot->m)); }
static void goes_out(worker *w) { MUST(heap_end(&w->spot->m)); }
static void closes(void) {
    collector_stops(&col);
    heap_stats stats;
    MUST(heap_look(&col.col, &stats));
    fprintf(stderr, "cycles %u, freed %llu\n", stats.cycles, (unsigned long long)stats.freed);
    for (int i = 0; i < threads; i++) MUST(heap_leave(&spots[i].m));
    MUST(heap_close(&col.col));
}
static void parks(worker *w) { heap_park(w->spot); }
static void unparks(worker *w) { heap_unpark(w->spot); }
#endif

/* A thread's part of the trees that die young. */
static void makes_trees(worker *w) {
    for (int d = SHORTEST; d <= depth - 2; d += 2) {
        uint64_t rounds = 2 * (2 * size_of(depth) / size_of(d)); /* the half of each kind */
        for (uint64_t i = (uint64_t)w->number; i < rounds; i += (uint64_t)threads) {
            tree it = i < rounds / 2 ? leaf(w) : from_leaves(w, d);
            if (i < rounds / 2) fill(w, d, it);
            drop(w, it);
        }
    }
}

static void *runs(void *given) {
    worker *w = given;
    comes_in(w);
    makes_trees(w);
    goes_out(w);
    return NULL;
}

static void figures(uint64_t from) {
    longest most = { 0, 0 };
    for (int i = 0; i < threads; i++) {
        if (workers[i].most.call > most.call) most.call = workers[i].most.call;
        if (workers[i].most.wait > most.wait) most.wait = workers[i].most.wait;
    }
    print_figures(threads, from, most);
}

int main(int argc, char **argv) {
    pthread_t others[MOST_THREADS];
    uint64_t made = 0, from = nanoseconds(CLOCK_MONOTONIC);
    if (argc > 1) threads = atoi(argv[1]);
    if (argc > 2) depth = atoi(argv[2]);
    if (argc > 3) cells = (uint32_t)atoi(argv[3]);
    clocks = argc > 4;
    HOLDS(threads >= 1 && threads <= MOST_THREADS && depth >= SHORTEST + 2 && depth <= 20);
    for (int i = 0; i < threads; i++) workers[i] = (worker){ .spot = &spots[i], .number = i };
    opens();
    worker *w = &workers[0];
    comes_in(w);
    drop(w, from_leaves(w, depth));
    tree stays = leaf(w);
    fill(w, depth - 2, stays);
    for (int i = 1; i < threads; i++) others[i] = start(runs, &workers[i]);
    makes_trees(w);
    parks(w);
    for (int i = 1; i < threads; i++) join(others[i]);
    unparks(w);
    uint64_t left = count(w, stays);
    goes_out(w);
    for (int i = 0; i < threads; i++) made += workers[i].made;
    printf("%llu nodes made; the tree that stays has %llu\n", (unsigned long long)made,
           (unsigned long long)left);
    closes();
    figures(from);
    return left == size_of(depth - 2) ? 0 : 1;
}
