/* A map that never changes, as a balanced tree: an insertion makes a new version, which shares all
 * but a path with the one before it. Some versions are published, where other threads could read
 * them; all others drop. Over heap.h nodes are private records, and publishing a version makes
 * cells of those of its nodes that are no cells yet. With -DMAP_BDWGC the same by the
 * Boehm-Demers-Weiser collector.
 *
 *     record_map [THREADS [EVERY [CELLS [RECORDS [ROUNDS [SIZE [clocks]]]]]]]
 *
 * A round is SIZE insertions into an empty map, each EVERY-th version published, and a look-up of
 * each key. The figures go to stderr, what is the same each time to stdout. With `clocks` the calls
 * that move or copy records are timed, or each one that makes a node. */
#define _POSIX_C_SOURCE 200809L
#ifdef MAP_BDWGC
#define GC_THREADS
#include <gc.h>
#endif
#include "records.h"

enum { MOST_THREADS = 64, STAY = 4 }; /* so many published versions stay, of each thread */

typedef struct {
    heap_spot *spot;
    int number;
    uint64_t published, adding, finding; /* the last two in nanoseconds */
    longest most;
} worker;

static heap_spot spots[MOST_THREADS];
static worker workers[MOST_THREADS];
static int threads = 1, rounds = 8;
static uint64_t every = 10000, size = 100000;
static uint32_t cells = 1048576, records = 32768;

#ifdef MAP_BDWGC
typedef struct node *tree;
typedef struct node { uint64_t key, value, height; tree left, right; } node;

static tree latest[MOST_THREADS], versions[MOST_THREADS][STAY];

static tree empty(void) { return NULL; }
static int is_empty(tree it) { return it == NULL; }
static node parts(worker *w, tree it) { (void)w; return *it; }
static uint64_t key_of(worker *w, tree it) { (void)w; return it->key; }
static uint64_t value_of(worker *w, tree it) { (void)w; return it->value; }
static tree left_of(worker *w, tree it) { (void)w; return it->left; }
static tree right_of(worker *w, tree it) { (void)w; return it->right; }
static uint64_t height_of(worker *w, tree it) { (void)w; return it ? it->height : 0; }

static tree make(worker *w, node parts) {
    uint64_t from = begins();
    tree it = GC_MALLOC(sizeof *it);
    ends(from, &w->most.call);
    HOLDS(it != NULL);
    *it = parts;
    return it;
}

static tree last(worker *w) { return latest[w->number]; }
static void set_last(worker *w, tree it) { latest[w->number] = it; }
static void publish(worker *w) { versions[w->number][w->published % STAY] = latest[w->number]; }
static tree version(worker *w, uint64_t i) { return versions[w->number][i % STAY]; }
static void has_room(worker *w) { (void)w; }
static size_t frame(worker *w) { (void)w; return 0; }
static void leave(worker *w, size_t held) { (void)w; (void)held; }

static void opens(void) { GC_INIT(); }
static void comes_in(worker *w) { (void)w; }
static void goes_out(worker *w) { (void)w; }
static void closes(void) {}
#else
typedef heap_val tree;
typedef struct { uint64_t key, value, height; tree left, right; } node;
enum { KEY, VALUE, HEIGHT, LEFT, RIGHT };

/* A thread's roots: its newest version, and a box that has those which it published. A box's first
 * field names a box, the others name records. An insertion makes and reads less than is said. */
enum { LAST, BOX, ROOTS, PUBLISHED = 1, MADE = 64, READ = 256 };

static collector col = { .spots = spots, .boxes = PUBLISHED, .roots = ROOTS, .rests = 1 };

static tree empty(void) { return heap_null(); }
static int is_empty(tree it) { return it.tag == HEAP_NULL; }

static heap_val get(worker *w, tree it, size_t field) {
    heap_val v;
    MUST(heap_get(&w->spot->m, it, field, &v));
    return v;
}

static node parts(worker *w, tree it) {
    heap_val all[HEAP_FIELDS];
    MUST(heap_get_all(&w->spot->m, it, all, HEAP_FIELDS));
    return (node){ all[KEY].n, all[VALUE].n, all[HEIGHT].n, all[LEFT], all[RIGHT] };
}

static uint64_t key_of(worker *w, tree it) { return get(w, it, KEY).n; }
static uint64_t value_of(worker *w, tree it) { return get(w, it, VALUE).n; }
static tree left_of(worker *w, tree it) { return get(w, it, LEFT); }
static tree right_of(worker *w, tree it) { return get(w, it, RIGHT); }
static uint64_t height_of(worker *w, tree it) { return is_empty(it) ? 0 : get(w, it, HEIGHT).n; }

static tree make(worker *w, node p) {
    tree it = heap_record(&w->spot->m, heap_num(p.key), heap_num(p.value), heap_num(p.height),
                          p.left, p.right);
    MUST(heap_why(it));
    return it;
}

static tree last(worker *w) { return root(&w->spot->m, LAST); }
static void set_last(worker *w, tree it) { MUST(heap_set(&w->spot->m, LAST, it)); }

/* What is published is shared. The thread goes on with the shared version, so that its private
 * records are garbage. */
static void publish(worker *w) {
    heap_mut *m = &w->spot->m;
    heap_val shared = promoted(m, &w->most, last(w));
    heap_code code;
    do code = heap_write(m, root(m, BOX).n, PUBLISHED + w->published % STAY, shared);
    while (code == HEAP_MOVED);
    MUST(code);
    set_last(w, shared);
}

static tree version(worker *w, uint64_t i) {
    return get(w, root(&w->spot->m, BOX), PUBLISHED + i % STAY);
}

/* Before an insertion: from here to its end nothing moves, so that it needs no roots. What it reads
 * stays held, so places for a copy of each record are asked for too, before it is too late. */
static void has_room(worker *w) {
    MUST(heap_answer(&w->spot->m));
    reserve(&w->spot->m, &w->most, MADE, READ + records);
}

/* Before a look-up, and after it: what it held is let go. */
static size_t frame(worker *w) {
    MUST(heap_answer(&w->spot->m));
    return heap_held(&w->spot->m);
}
static void leave(worker *w, size_t held) { MUST(heap_release(&w->spot->m, held)); }

static void opens(void) {
    col.count = (size_t)threads;
    col.records = records;
    collector_starts(&col, cells, 4 * records + 4 * READ);
}

static void comes_in(worker *w) {
    heap_mut *m = &w->spot->m;
    size_t place = 0;
    MUST(heap_begin(m));
    MUST(heap_make_wait(m, NULL, 0, &place));
    MUST(heap_push(m, empty()));
    MUST(heap_push(m, heap_ref(place)));
}
static void goes_out(worker *w) { MUST(heap_end(&w->spot->m)); }
static void closes(void) {
    collector_stops(&col);
    heap_stats stats;
    MUST(heap_look(&col.col, &stats));
    fprintf(stderr, "cycles %u, freed %llu\n", stats.cycles, (unsigned long long)stats.freed);
    for (int i = 0; i < threads; i++) MUST(heap_leave(&spots[i].m));
    MUST(heap_close(&col.col));
}
#endif

/* Trees whose two sides differ in height by 2 at most. */

static tree joined(worker *w, tree left, uint64_t key, uint64_t value, tree right) {
    uint64_t one = height_of(w, left), other = height_of(w, right);
    return make(w, (node){ key, value, (one > other ? one : other) + 1, left, right });
}

static tree balanced(worker *w, tree left, uint64_t key, uint64_t value, tree right) {
    uint64_t one = height_of(w, left), other = height_of(w, right);
    if (one > other + 2) {
        node l = parts(w, left);
        if (height_of(w, l.left) >= height_of(w, l.right))
            return joined(w, l.left, l.key, l.value, joined(w, l.right, key, value, right));
        node m = parts(w, l.right);
        tree low = joined(w, l.left, l.key, l.value, m.left);
        return joined(w, low, m.key, m.value, joined(w, m.right, key, value, right));
    }
    if (other > one + 2) {
        node r = parts(w, right);
        if (height_of(w, r.right) >= height_of(w, r.left))
            return joined(w, joined(w, left, key, value, r.left), r.key, r.value, r.right);
        node m = parts(w, r.left);
        tree low = joined(w, left, key, value, m.left);
        return joined(w, low, m.key, m.value, joined(w, m.right, r.key, r.value, r.right));
    }
    return joined(w, left, key, value, right);
}

static tree add(worker *w, uint64_t key, uint64_t value, tree it) {
    if (is_empty(it)) return joined(w, empty(), key, value, empty());
    node p = parts(w, it);
    if (key == p.key) return joined(w, p.left, key, value, p.right);
    if (key < p.key) return balanced(w, add(w, key, value, p.left), p.key, p.value, p.right);
    return balanced(w, p.left, p.key, p.value, add(w, key, value, p.right));
}

/* The value of a key, or one that no key has. */
static uint64_t find(worker *w, uint64_t key, tree it) {
    uint64_t its;
    while (!is_empty(it) && key != (its = key_of(w, it)))
        it = key < its ? left_of(w, it) : right_of(w, it);
    return is_empty(it) ? size : value_of(w, it);
}

/* Keys come in an order that looks like none, and none comes twice in a round. */
static uint64_t first_key(uint64_t round) { return round * 7919 + 1; }
static uint64_t next_key(uint64_t key) {
    return (key * 1103515245 + 12345) % (UINT64_C(1) << 31);
}

static void adds(worker *w, uint64_t round) {
    uint64_t key = first_key(round);
    set_last(w, empty());
    for (uint64_t i = 0; i < size; i++, key = next_key(key)) {
        has_room(w);
        set_last(w, add(w, key, i, last(w)));
        if (i % every != every - 1) continue;
        publish(w);
        w->published++;
    }
}

static void finds(worker *w, uint64_t round) {
    uint64_t key = first_key(round), newest = size / every * every; /* in what was published */
    for (uint64_t i = 0; i < size; i++, key = next_key(key)) {
        size_t held = frame(w);
        HOLDS(find(w, key, last(w)) == i);
        if (i + 1 == newest || i == newest)
            HOLDS(find(w, key, version(w, w->published - 1)) == (i < newest ? i : size));
        leave(w, held);
    }
}

static void *runs(void *given) {
    worker *w = given;
    comes_in(w);
    for (int i = w->number; i < rounds; i += threads) {
        uint64_t from = nanoseconds(CLOCK_MONOTONIC);
        adds(w, (uint64_t)i);
        uint64_t between = nanoseconds(CLOCK_MONOTONIC);
        finds(w, (uint64_t)i);
        w->adding += between - from;
        w->finding += nanoseconds(CLOCK_MONOTONIC) - between;
    }
    goes_out(w);
    return NULL;
}

static void figures(uint64_t from) {
    longest most = { 0, 0 };
    uint64_t adding = 0, finding = 0, done = (uint64_t)rounds * size;
    for (int i = 0; i < threads; i++) {
        adding += workers[i].adding;
        finding += workers[i].finding;
        if (workers[i].most.call > most.call) most.call = workers[i].most.call;
        if (workers[i].most.wait > most.wait) most.wait = workers[i].most.wait;
    }
    print_figures(threads, from, most);
    fprintf(stderr, "an insertion %llu ns, a look-up %llu ns\n",
            (unsigned long long)(adding / done), (unsigned long long)(finding / done));
}

int main(int argc, char **argv) {
    pthread_t others[MOST_THREADS];
    uint64_t published = 0, from = nanoseconds(CLOCK_MONOTONIC);
    if (argc > 1) threads = atoi(argv[1]);
    if (argc > 2) every = (uint64_t)atoi(argv[2]);
    if (argc > 3) cells = (uint32_t)atoi(argv[3]);
    if (argc > 4) records = (uint32_t)atoi(argv[4]);
    if (argc > 5) rounds = atoi(argv[5]);
    if (argc > 6) size = (uint64_t)atoi(argv[6]);
    clocks = argc > 7;
    HOLDS(threads >= 1 && threads <= MOST_THREADS && every >= 1 && size >= every);
    for (int i = 0; i < threads; i++) workers[i] = (worker){ .spot = &spots[i], .number = i };
    opens();
    for (int i = 1; i < threads; i++) others[i] = start(runs, &workers[i]);
    (void)runs(&workers[0]);
    for (int i = 1; i < threads; i++) join(others[i]);
    for (int i = 0; i < threads; i++) published += workers[i].published;
    printf("%d rounds of %llu insertions and look-ups, %llu versions published\n", rounds,
           (unsigned long long)size, (unsigned long long)published);
    closes();
    figures(from);
    return 0;
}
