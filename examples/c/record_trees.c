/* GCBench with nodes that never change: binary trees, made from the leaves up, that die young
 * alongside one that stays. Over heap.h the nodes are private records, and only what is still
 * needed when the private heap is full becomes cells of the heap. With -DTREES_MALLOC the same by
 * malloc, and free of each tree; with -DTREES_BDWGC by the Boehm-Demers-Weiser collector.
 *
 *     record_trees [THREADS [DEPTH [CELLS [RECORDS [clocks]]]]]
 *
 * DEPTH is that of the first tree, RECORDS the size of each private heap. The figures go to stderr,
 * what is the same each time to stdout. With `clocks` calls are timed: those that move records,
 * or each one that makes a node, which costs more than the call. */
#define _POSIX_C_SOURCE 200809L
#ifdef TREES_BDWGC
#define GC_THREADS
#include <gc.h>
#endif
#include "records.h"

enum { SHORTEST = 4, MOST_THREADS = 64, LEFT = 0, RIGHT = 1 };

typedef struct {
    heap_spot *spot;
    int number;
    uint64_t made;
    longest most;
} worker;

static heap_spot spots[MOST_THREADS];
static worker workers[MOST_THREADS];
static int threads = 1, depth = 18;
static uint32_t cells = 1048576, records = 131072;

static uint64_t size_of(int of_depth) { return (UINT64_C(2) << of_depth) - 1; }

#if defined TREES_MALLOC || defined TREES_BDWGC
typedef struct node { struct node *child[2]; } node;
typedef node *tree;

static node *make(worker *w, node *left, node *right) {
    uint64_t from = begins();
#ifdef TREES_BDWGC
    node *it = GC_MALLOC(sizeof *it);
#else
    node *it = malloc(sizeof *it);
#endif
    ends(from, &w->most.call);
    HOLDS(it != NULL);
    it->child[LEFT] = left;
    it->child[RIGHT] = right;
    w->made++;
    return it;
}

static void drop(worker *w, tree it) {
    (void)w;
#ifdef TREES_MALLOC
    if (it->child[LEFT]) drop(w, it->child[LEFT]);
    if (it->child[RIGHT]) drop(w, it->child[RIGHT]);
    free(it);
#else
    (void)it;
#endif
}

static tree grow(worker *w, int of_depth) {
    if (of_depth == 0) return make(w, NULL, NULL);
    tree left = grow(w, of_depth - 1), right = grow(w, of_depth - 1);
    return make(w, left, right);
}

static tree stays;
static void keep(worker *w, tree it) { (void)w; stays = it; }
static tree kept(worker *w) { (void)w; return stays; }

static uint64_t count(worker *w, tree it) {
    return 1 + (it->child[LEFT] ? count(w, it->child[LEFT]) : 0)
             + (it->child[RIGHT] ? count(w, it->child[RIGHT]) : 0);
}

static void opens(void) {
#ifdef TREES_BDWGC
    GC_INIT();
#endif
}
static void comes_in(worker *w) { (void)w; }
static void goes_out(worker *w) { (void)w; }
static void closes(void) {}
static void parks(worker *w) { (void)w; }
static void unparks(worker *w) { (void)w; }
#else
typedef heap_val tree;

/* Trees up to this depth are made without roots, in room that is there before. */
enum { SMALL = 8, ROOTS = 256 };

static collector col = { .spots = spots, .boxes = 1, .roots = ROOTS, .rests = 1 };

static tree make(worker *w, tree left, tree right) {
    heap_val it = heap_new(&w->spot->m, left.tag | right.tag << 8, left.n, right.n, 0, 0, 0);
    MUST(heap_why(it));
    w->made++;
    return it;
}

static tree grow_small(worker *w, int of_depth) {
    if (of_depth == 0) return make(w, heap_null(), heap_null());
    tree left = grow_small(w, of_depth - 1), right = grow_small(w, of_depth - 1);
    return make(w, left, right);
}

/* The tree is good until records move, so a part stands in a root while the next one is made. */
static tree grow(worker *w, int of_depth) {
    heap_mut *m = &w->spot->m;
    if (of_depth <= SMALL) {
        MUST(heap_answer(m));
        reserve(m, &w->most, (uint32_t)size_of(of_depth), 0);
        return grow_small(w, of_depth);
    }
    size_t roots = heap_roots(m);
    MUST(heap_push(m, grow(w, of_depth - 1)));
    MUST(heap_push(m, grow(w, of_depth - 1)));
    reserve(m, &w->most, 1, 0);
    tree it = make(w, root(m, roots), root(m, roots + 1));
    MUST(heap_pop(m, 2));
    return it;
}

static void drop(worker *w, tree it) { (void)w; (void)it; }

/* The tree that stays is the first root, and shared at once. */
static void keep(worker *w, tree it) {
    MUST(heap_push(&w->spot->m, it));
    share(&w->spot->m, &w->most);
}
static tree kept(worker *w) { return root(&w->spot->m, 0); }

static uint64_t count(worker *w, tree it) {
    heap_mut *m = &w->spot->m;
    size_t held = heap_held(m);
    heap_val fields[HEAP_FIELDS];
    MUST(heap_get_all(m, it, fields, HEAP_FIELDS));
    MUST(heap_answer(m));
    uint64_t found = 1;
    for (int i = LEFT; i <= RIGHT; i++)
        if (fields[i].tag != HEAP_NULL) found += count(w, fields[i]);
    MUST(heap_release(m, held));
    return found;
}

static void opens(void) {
    col.count = (size_t)threads;
    col.records = records;
    collector_starts(&col, cells, 2 * records + 4 * ROOTS);
}
static void comes_in(worker *w) { MUST(heap_begin(&w->spot->m)); }
static void goes_out(worker *w) { MUST(heap_end(&w->spot->m)); }
static void closes(void) {
    collector_stops(&col);
    heap_stats stats;
    MUST(heap_look(&col.col, &stats));
    fprintf(stderr, "cycles %u, freed %llu\n", stats.cycles, (unsigned long long)stats.freed);
    for (int i = 0; i < threads; i++) MUST(heap_leave(&spots[i].m));
    MUST(heap_close(&col.col));
}
static void parks(worker *w) { heap_park(w->spot); }
static void unparks(worker *w) { heap_unpark(w->spot); }
#endif

/* A thread's part of the trees that die young. */
static void makes_trees(worker *w) {
    for (int d = SHORTEST; d <= depth - 2; d += 2) {
        uint64_t rounds = 2 * (2 * size_of(depth) / size_of(d));
        for (uint64_t i = (uint64_t)w->number; i < rounds; i += (uint64_t)threads)
            drop(w, grow(w, d));
    }
}

static void *runs(void *given) {
    worker *w = given;
    comes_in(w);
    makes_trees(w);
    goes_out(w);
    return NULL;
}

static void figures(uint64_t from) {
    longest most = { 0, 0 };
    for (int i = 0; i < threads; i++) {
        if (workers[i].most.call > most.call) most.call = workers[i].most.call;
        if (workers[i].most.wait > most.wait) most.wait = workers[i].most.wait;
    }
    print_figures(threads, from, most);
}

int main(int argc, char **argv) {
    pthread_t others[MOST_THREADS];
    uint64_t made = 0, from = nanoseconds(CLOCK_MONOTONIC);
    if (argc > 1) threads = atoi(argv[1]);
    if (argc > 2) depth = atoi(argv[2]);
    if (argc > 3) cells = (uint32_t)atoi(argv[3]);
    if (argc > 4) records = (uint32_t)atoi(argv[4]);
    clocks = argc > 5;
    HOLDS(threads >= 1 && threads <= MOST_THREADS && depth >= SHORTEST + 2 && depth <= 20);
    for (int i = 0; i < threads; i++) workers[i] = (worker){ .spot = &spots[i], .number = i };
    opens();
    worker *w = &workers[0];
    comes_in(w);
    drop(w, grow(w, depth));
    keep(w, grow(w, depth - 2));
    for (int i = 1; i < threads; i++) others[i] = start(runs, &workers[i]);
    makes_trees(w);
    parks(w);
    for (int i = 1; i < threads; i++) join(others[i]);
    unparks(w);
    uint64_t left = count(w, kept(w));
    goes_out(w);
    for (int i = 0; i < threads; i++) made += workers[i].made;
    printf("%llu nodes made; the tree that stays has %llu\n", (unsigned long long)made,
           (unsigned long long)left);
    closes();
    figures(from);
    return left == size_of(depth - 2) ? 0 : 1;
}
