/* Random calls of records, right and wrong ones, in threads: what each call answers is compared
 * with a model of what the thread's records, boxes, roots and places have. A record's field 0 is
 * its number, and a box's field 4, so that whatever comes back tells what it is.
 *
 *     hostile_records [CALLS [THREADS [SEED]]]
 */
#include "support.h"
#include <string.h>

enum { RECORDS = 200, ROOTS = 60, ROOM = 700, CELLS = 900, MOST_THREADS = 16 };
enum { LIVE = 256, STALE = 64, MOST_BOXES = 40, BOXES = 2, BOX_NUMBER = 4 };
enum { MOST_STEPS = 6 };
typedef enum { NOTHING, NUMBER, RECORD, BOX, COPY } sort; /* COPY: a record that was not read yet */
typedef struct { sort sort; uint32_t n; } thing;
typedef struct { thing has[HEAP_FIELDS]; } shape;
typedef struct { heap_val v; thing is; } reference;

typedef struct {
    heap_spot *spot;
    heap_mut *m;
    uint64_t seed, calls, most, answered[HEAP_PART + 1];
    thing held[ROOM], roots[ROOTS];
    size_t holds, rooted;
    reference live[LIVE]; /* private records that may be named */
    heap_val stale[STALE];
    size_t lives, stales, steady; /* places below the last one have moved never */
    size_t index, number;         /* of some place, before a call that may move it */
    shape *records, boxes[MOST_BOXES];
    uint32_t made, boxed;
} world;

static heap_spot spots[MOST_THREADS];
static world worlds[MOST_THREADS];

static uint64_t random_number(world *w) {
    w->seed ^= w->seed << 13;
    w->seed ^= w->seed >> 7;
    return w->seed ^= w->seed << 17;
}
static size_t below(world *w, size_t n) { return random_number(w) % n; }

static heap_code called(world *w, heap_code code) {
    w->calls++;
    w->answered[code]++;
    return code;
}

static int is_late(heap_code code) { return code == HEAP_WAIT || code == HEAP_FULL; }
static int is_same(thing a, thing b) { return a.sort == b.sort && a.n == b.n; }

static thing part_of(world *w, thing of, size_t field) {
    return of.sort == RECORD ? w->records[of.n].has[field] : w->boxes[of.n].has[field];
}

/* What a cell or a private record says that it is. */
static void says(world *w, heap_val v, thing is) {
    heap_val number;
    MUST(heap_get(w->m, v, is.sort == BOX ? BOX_NUMBER : 0, &number));
    HOLDS(number.tag == HEAP_NUM && number.n == is.n);
}

static void hold(world *w, thing is) { w->held[w->holds++] = is; }

/* The cell at a place that has this index now. */
static size_t number_of(world *w, size_t i) {
    size_t place;
    MUST(heap_place(w->m, i, &place));
    HOLDS(heap_index(place) == i && (i >= w->steady || place == i));
    return place;
}
static heap_val at_index(world *w, size_t i) { return heap_ref(number_of(w, i)); }

/* The places that calls took for copies, and what stands there. */
static void reads_copies(world *w) {
    while (w->holds < heap_held(w->m)) hold(w, (thing){ COPY, 0 });
    HOLDS(w->holds == heap_held(w->m));
    for (size_t i = HEAP_FIRST; i < w->holds && heap_room(w->m) > 0; i++) {
        heap_val number;
        if (w->held[i].sort != COPY) continue;
        MUST(heap_read(w->m, number_of(w, i), 0, &number));
        w->held[i] = (thing){ RECORD, (uint32_t)number.n };
    }
}

static void lives(world *w, heap_val v, thing is) {
    if (w->lives == LIVE) w->lives = LIVE / 2;
    w->live[w->lives++] = (reference){ v, is };
}

/* What a call found is what the model has there. */
static void found(world *w, heap_val v, thing is, int is_in_private) {
    if (is.sort == NOTHING) HOLDS(v.tag == HEAP_NULL);
    else if (is.sort == NUMBER) HOLDS(v.tag == HEAP_NUM && v.n == is.n);
    else if (v.tag == HEAP_REC) {
        HOLDS(is_in_private && is.sort == RECORD);
        says(w, v, is);
        lives(w, v, is);
    } else {
        HOLDS(v.tag == HEAP_REF);
        if (!is_in_private) {
            HOLDS(heap_index(v.n) == w->holds);
            hold(w, is);
        }
        size_t i = heap_index(v.n);
        HOLDS(i < w->holds && (w->held[i].sort == COPY || is_same(w->held[i], is)));
        HOLDS(v.n == number_of(w, i));
        if (heap_room(w->m) > 0) says(w, v, is);
    }
}

/* Some value, good or bad: what it is, and whether it may be named or be a root at all. */
typedef struct { heap_val v; thing is; int is_good; } given;

static given some(world *w) {
    given g = { heap_null(), { NOTHING, 0 }, 1 };
    size_t i = below(w, w->holds);
    switch (below(w, 12)) {
    case 0: break;
    case 1:
        g.is = (thing){ NUMBER, (uint32_t)random_number(w) };
        g.v = heap_num(g.is.n);
        break;
    case 2: g.is_good = 0; g.v = heap_num(UINT64_MAX << below(w, 3)); break;
    case 3: g.is_good = 0; g.v = (heap_val){ HEAP_NONE + below(w, 300), below(w, 9) }; break;
    case 4: g.is_good = 0; g.v = heap_ref(i == 0 ? 0 : ROOM + below(w, 3)); break;
    case 5:
        g.is_good = 0;
        g.v = w->stales ? w->stale[below(w, w->stales)] : heap_ref(UINT64_MAX);
        break;
    case 6: case 7:
        if (i == 0 || w->held[i].sort == COPY) break;
        g.is = w->held[i];
        g.v = at_index(w, i);
        break;
    default:
        if (w->lives == 0) break;
        i = w->lives - 1 - below(w, w->lives < 20 ? w->lives : 20);
        g.v = w->live[i].v;
        g.is = w->live[i].is;
    }
    return g;
}

/* The calls. Each one is made, and what it answered and did is compared. */

static void makes(world *w) {
    given g[HEAP_FIELDS];
    int is_good = 1;
    g[0] = (given){ heap_num(w->made), { NUMBER, w->made }, 1 };
    for (size_t i = 1; i < HEAP_FIELDS; i++) {
        do g[i] = some(w); while (!g[i].is_good && below(w, 4) > 0);
        if (g[i].v.tag > 255) g[i].v.tag = HEAP_NONE; /* a byte has no more */
        is_good &= g[i].is_good && g[i].is.sort != BOX;
    }
    heap_val it = heap_record(w->m, g[0].v, g[1].v, g[2].v, g[3].v, g[4].v);
    heap_code code = called(w, heap_why(it));
    if (code == HEAP_OK) {
        HOLDS(is_good && it.tag == HEAP_REC);
        for (size_t i = 0; i < HEAP_FIELDS; i++) w->records[w->made].has[i] = g[i].is;
        lives(w, it, (thing){ RECORD, w->made++ });
    } else {
        HOLDS(is_good ? code == HEAP_NO_RECORDS
                      : code == HEAP_BAD_VALUE || code == HEAP_NO_RECORDS);
    }
}

static void gets(world *w) {
    given g = some(w);
    size_t field = below(w, HEAP_FIELDS + 1), room = heap_room(w->m);
    heap_val out;
    if (g.v.tag == HEAP_REF && g.v.n == 0) return; /* the anchor, which all threads have */
    heap_code code = called(w, heap_get(w->m, g.v, field, &out));
    if (code == HEAP_OK) {
        HOLDS(g.is.sort >= RECORD && field < HEAP_FIELDS);
        found(w, out, part_of(w, g.is, field), g.v.tag == HEAP_REC);
    } else {
        HOLDS(g.is.sort < RECORD || field == HEAP_FIELDS || (code == HEAP_NO_ROOM && room == 0));
    }
}

static void gets_all(world *w) {
    given g = some(w);
    size_t room = heap_room(w->m);
    heap_val out[HEAP_FIELDS];
    heap_code code = called(w, heap_get_all(w->m, g.v, out, HEAP_FIELDS));
    if (code != HEAP_OK) {
        HOLDS(g.is.sort < RECORD || (code == HEAP_NO_ROOM && room < HEAP_FIELDS));
        return;
    }
    HOLDS(g.is.sort >= RECORD);
    for (size_t i = 0; i < HEAP_FIELDS; i++)
        found(w, out[i], part_of(w, g.is, i), g.v.tag == HEAP_REC);
}

/* Copies places to the next ones until few are free. */
static void fills(world *w) {
    size_t left = below(w, MOST_STEPS);
    while (w->holds > HEAP_FIRST && heap_room(w->m) > left) {
        size_t count = w->holds - HEAP_FIRST, more = heap_room(w->m) - left;
        if (count > more) count = more;
        MUST(heap_keep(w->m, w->holds, number_of(w, HEAP_FIRST), count));
        for (size_t i = HEAP_FIRST; i < HEAP_FIRST + count; i++) hold(w, w->held[i]);
    }
}

/* Along a path, of which the model says how far it can be read, and what is there; now and then
 * with few places free. */
static void walks_path(world *w) {
    given g = some(w);
    uint8_t path[MOST_STEPS];
    size_t n = below(w, MOST_STEPS + 1), holds = w->holds, cells = 0, i = 0;
    heap_val out = heap_num(STALE);
    thing is = g.is;
    if (g.v.tag == HEAP_REF && g.v.n == 0) return; /* the anchor, which all threads have */
    for (size_t k = 0; k < n; k++) path[k] = (uint8_t)below(w, HEAP_FIELDS + (below(w, 8) == 0));
    if (below(w, 4) == 0) fills(w);
    size_t room = heap_room(w->m);
    heap_code code = called(w, heap_walk(w->m, g.v, path, n, &out));
    for (; i < n && is.sort >= RECORD && path[i] < HEAP_FIELDS; i++) {
        is = part_of(w, is, path[i]);
        cells += is.sort >= RECORD;
    }
    if (code == HEAP_OK) {
        HOLDS(n > 0 && i == n);
        found(w, out, is, out.tag != HEAP_REF || heap_index(out.n) < w->holds);
    } else {
        HOLDS(out.tag == HEAP_NUM && out.n == STALE);
        if (n == 0) HOLDS(code == HEAP_BAD_SIZE);
        else if (code == HEAP_NO_ROOM) HOLDS(room <= cells);
        else HOLDS(i < n && (is.sort >= RECORD ? code == HEAP_BAD_FIELD
                             : code == HEAP_BAD_VALUE || (i == 0 && code == HEAP_BAD_PLACE)));
    }
    HOLDS(heap_held(w->m) == w->holds);
    if (w->holds <= holds + 1) return;
    MUST(heap_keep(w->m, holds, 0, 0));
    w->holds = holds;
}

static void pushes(world *w) {
    given g = some(w);
    size_t i = below(w, w->rooted + 1);
    int is_new = below(w, 4) > 0;
    heap_code code = called(w, is_new ? heap_push(w->m, g.v) : heap_set(w->m, i, g.v));
    int fits = is_new ? w->rooted < ROOTS : i < w->rooted;
    HOLDS((code == HEAP_OK) == (g.is_good && fits));
    if (code != HEAP_OK) return;
    if (is_new) i = w->rooted++;
    w->roots[i] = g.is;
}

static void pops(world *w) {
    size_t n = below(w, 8) ? below(w, 3) : below(w, w->rooted + 2);
    heap_code code = called(w, heap_pop(w->m, n));
    HOLDS((code == HEAP_OK) == (n <= w->rooted));
    if (code == HEAP_OK) w->rooted -= n;
}

/* Goes down from a root. */
static void walks(world *w) {
    size_t i = below(w, w->rooted + 1);
    heap_val v;
    heap_code code = called(w, heap_root(w->m, i, &v));
    HOLDS((code == HEAP_OK) == (i < w->rooted));
    if (code != HEAP_OK) return;
    thing is = w->roots[i];
    while (is.sort >= RECORD) {
        size_t field = below(w, HEAP_FIELDS);
        heap_val next;
        if (v.tag == HEAP_REF && heap_room(w->m) < 2) return;
        MUST(called(w, heap_get(w->m, v, field, &next)));
        found(w, next, part_of(w, is, field), v.tag == HEAP_REC);
        is = part_of(w, is, field);
        v = next;
    }
}

/* What was good before a move is refused from now on. */
static void is_stale(world *w, heap_val v) {
    heap_val out;
    HOLDS(heap_get(w->m, v, 0, &out) == (v.tag == HEAP_REC ? HEAP_BAD_VALUE : HEAP_BAD_PLACE));
    HOLDS(heap_push(w->m, v) == HEAP_BAD_VALUE);
    w->stale[w->stales < STALE ? w->stales++ : below(w, STALE)] = v;
}

/* After a call that may have moved records, and may have shared them: what is good now, and that
 * each root is what it was. Where the probe is good still nothing has moved. */
static void moved(world *w, heap_val probe, size_t base, int has_shared) {
    size_t cells = 0;
    heap_val v;
    HOLDS(heap_roots(w->m) == w->rooted);
    if (heap_get(w->m, probe, 0, &v) == HEAP_OK) {
        HOLDS(!has_shared && w->number == number_of(w, w->index));
        return;
    }
    if (base < w->steady) w->steady = base;
    if (w->index >= w->steady) is_stale(w, heap_ref(w->number));
    else HOLDS(w->number == number_of(w, w->index));
    for (size_t i = 0; i < w->lives; i++) is_stale(w, w->live[i].v);
    w->lives = 0;
    for (size_t i = 0; i < w->rooted; i++) {
        MUST(heap_root(w->m, i, &v));
        HOLDS(!has_shared || v.tag != HEAP_REC);
        if (has_shared && v.tag == HEAP_REF) HOLDS(heap_index(v.n) == base + cells);
        cells += v.tag == HEAP_REF || v.tag == HEAP_REC;
    }
    if (has_shared) {
        HOLDS(heap_held(w->m) == base + cells);
        w->holds = base;
        for (size_t i = 0; i < w->rooted; i++)
            if (w->roots[i].sort >= RECORD) hold(w, w->roots[i]);
    }
    for (size_t i = 0; i < w->rooted; i++) {
        MUST(heap_root(w->m, i, &v));
        if (v.tag == HEAP_REC) lives(w, v, w->roots[i]);
        if (w->roots[i].sort < RECORD) found(w, v, w->roots[i], 1);
        else if (v.tag == HEAP_REC || heap_room(w->m) > 0) says(w, v, w->roots[i]);
    }
}

/* A private record, or null if there is no room for one; and a place with its number. */
static heap_val probe_of(world *w) {
    w->index = below(w, w->holds);
    w->number = number_of(w, w->index);
    heap_val it = heap_record(w->m, heap_num(w->made), heap_null(), heap_null(), heap_null(),
                              heap_null());
    if (it.tag != HEAP_REC) return w->lives ? w->live[w->lives - 1].v : heap_null();
    memset(&w->records[w->made], 0, sizeof w->records[0]);
    w->records[w->made].has[0] = (thing){ NUMBER, w->made };
    lives(w, it, (thing){ RECORD, w->made++ });
    return it;
}

static void shares(world *w) {
    size_t base = below(w, 4) == 0 ? below(w, ROOM) : HEAP_FIRST, most = below(w, 30);
    size_t room = heap_room(w->m), needs = RECORDS + w->rooted;
    heap_val probe = probe_of(w);
    int is_good = base >= HEAP_FIRST && base <= w->holds && most > 0;
    if (probe.tag != HEAP_REC || below(w, 8) > 0) return;
    heap_code code = called(w, heap_share(w->m, base, most));
    if (is_good) HOLDS(code == HEAP_OK || code == HEAP_PART || is_late(code) ||
                       (code == HEAP_NO_ROOM && room < needs));
    else HOLDS(code == HEAP_BAD_PLACE || code == HEAP_BAD_SIZE || code == HEAP_NO_ROOM);
    moved(w, probe, base, code == HEAP_OK);
    if (is_late(code)) heap_sleep();
}

/* Lets places and roots go, and shares the rest. */
static void tidies(world *w) {
    heap_val probe = probe_of(w);
    if (heap_room(w->m) >= 3 * RECORDS || probe.tag != HEAP_REC) return;
    MUST(heap_pop(w->m, w->rooted / 2));
    w->rooted -= w->rooted / 2;
    int fulls = 0;
    heap_code code;
    do code = called(w, heap_share(w->m, HEAP_FIRST, 50));
    while (code == HEAP_PART || heap_again(w->m, code, &fulls));
    moved(w, probe, HEAP_FIRST, code == HEAP_OK);
}

/* Whether the places are those that a share leaves. */
static int is_as_shared(world *w) {
    size_t next = HEAP_FIRST;
    heap_val v;
    for (size_t i = 0; i < w->rooted; i++) {
        MUST(heap_root(w->m, i, &v));
        if (v.tag == HEAP_REC || (v.tag == HEAP_REF && heap_index(v.n) != next)) return 0;
        next += v.tag == HEAP_REF;
    }
    return heap_held(w->m) == next;
}

static void reserves(world *w) {
    uint32_t records = (uint32_t)below(w, RECORDS + 2);
    size_t places = below(w, ROOM / 4);
    heap_val probe = probe_of(w), v;
    if (probe.tag != HEAP_REC || below(w, 4) > 0) return;
    heap_code code = called(w, heap_reserve(w->m, HEAP_FIRST, records, places));
    HOLDS(records <= RECORDS || code == HEAP_BAD_SIZE);
    moved(w, probe, HEAP_FIRST, heap_get(w->m, probe, 0, &v) != HEAP_OK && is_as_shared(w));
    if (code == HEAP_OK) {
        HOLDS(heap_room(w->m) >= places);
        for (; records > 0 && below(w, 8) > 0; records--) HOLDS(probe_of(w).tag == HEAP_REC);
    }
    if (is_late(code)) heap_sleep();
}

static void promotes(world *w) {
    given g = some(w);
    size_t place = 0, again = 0, most = below(w, 30), room = heap_room(w->m);
    heap_code code = called(w, heap_promote(w->m, g.v, most, &place));
    reads_copies(w);
    if (is_late(code)) heap_sleep();
    if (code != HEAP_OK) {
        HOLDS(g.v.tag != HEAP_REC || !g.is_good || most == 0 || code == HEAP_PART ||
              is_late(code) || (code == HEAP_NO_ROOM && room < RECORDS));
        return;
    }
    HOLDS(g.v.tag == HEAP_REC && g.is_good && heap_index(place) < w->holds);
    if (heap_room(w->m) > 0) says(w, heap_ref(place), g.is);
    MUST(heap_promote(w->m, g.v, 1, &again));
    HOLDS(again == place);
}

/* A box of the thread's own is a root, or a field of the others. */
static void makes_box(world *w) {
    size_t place;
    heap_val all[HEAP_FIELDS] = { [BOX_NUMBER] = heap_num(w->boxed) };
    if (w->boxed == MOST_BOXES || w->rooted == ROOTS) return;
    heap_code code = called(w, heap_make(w->m, all, HEAP_FIELDS, &place));
    if (is_late(code)) heap_sleep();
    if (code != HEAP_OK) return;
    memset(&w->boxes[w->boxed], 0, sizeof w->boxes[0]);
    w->boxes[w->boxed].has[BOX_NUMBER] = (thing){ NUMBER, w->boxed };
    HOLDS(heap_index(place) == w->holds);
    hold(w, (thing){ BOX, w->boxed++ });
    MUST(heap_push(w->m, heap_ref(place)));
    w->roots[w->rooted++] = w->held[heap_index(place)];
}

static void writes(world *w) {
    size_t i = below(w, w->holds), field = below(w, BOX_NUMBER), place = number_of(w, i);
    thing to = w->held[i];
    given g = some(w);
    heap_val was = heap_null();
    int swaps = below(w, 2) == 0;
    if (i == 0 || to.sort == COPY || heap_room(w->m) < 3) return;
    if (to.sort == RECORD) {
        HOLDS(called(w, heap_write(w->m, place, field, g.v)) != HEAP_OK);
        return;
    }
    sort wanted = field < BOXES ? BOX : RECORD;
    int fits = g.is_good && g.v.tag != HEAP_REC && (g.is.sort < RECORD || g.is.sort == wanted);
    if (swaps) {
        MUST(heap_read(w->m, place, field, &was));
        found(w, was, part_of(w, to, field), 0);
    }
    heap_code code = called(w, swaps ? heap_swap(w->m, place, field, was, g.v)
                                     : heap_write(w->m, place, field, g.v));
    HOLDS(fits ? code == HEAP_OK || (!swaps && code == HEAP_MOVED) : code != HEAP_OK);
    if (code == HEAP_OK) w->boxes[to.n].has[field] = g.is;
}

static void lets_go(world *w) {
    size_t n = below(w, w->holds + 2);
    heap_code code = called(w, below(w, 2) ? heap_release(w->m, n) : heap_keep(w->m, n, 0, 0));
    size_t holds = heap_held(w->m);
    HOLDS(holds <= w->holds && (code != HEAP_OK || holds >= n));
    w->holds = holds;
}

/* A handle that is zero, or out: each call says so, and gives nothing. */
static void refuses_all(heap_mut *m, heap_code code) {
    size_t place = STALE;
    heap_val out = heap_num(STALE), all[HEAP_FIELDS], of = heap_ref(0);
    const uint8_t path[] = { 0 };
    HOLDS(heap_why(heap_new(m, 0, 0, 0, 0, 0, 0)) == code);
    HOLDS(heap_get(m, of, 0, &out) == code);
    HOLDS(heap_get_all(m, of, all, HEAP_FIELDS) == code);
    HOLDS(heap_walk(m, of, path, 1, &out) == code);
    HOLDS(heap_roots(m) == 0);
    HOLDS(heap_push(m, heap_null()) == code);
    HOLDS(heap_pop(m, 0) == code);
    HOLDS(heap_root(m, 0, &out) == code);
    HOLDS(heap_set(m, 0, heap_null()) == code);
    HOLDS(heap_place(m, 0, &place) == code);
    HOLDS(heap_reserve(m, HEAP_FIRST, 0, 0) == code);
    HOLDS(heap_share(m, HEAP_FIRST, 1) == code);
    HOLDS(heap_promote(m, (heap_val){ HEAP_REC, 0 }, 1, &place) == code);
    HOLDS(heap_release(m, HEAP_FIRST) == code);
    HOLDS(place == STALE && out.tag == HEAP_NUM && out.n == STALE);
}

static void goes_out(world *w) {
    heap_mut none = HEAP_ZERO;
    if (below(w, 500) > 0) return;
    refuses_all(&none, HEAP_NO_HANDLE);
    HOLDS(heap_records(&none, 1, 1) == HEAP_NO_HANDLE && heap_records(w->m, 1, 1) != HEAP_OK);
    MUST(heap_end(w->m));
    refuses_all(w->m, HEAP_NOT_IN);
    MUST(heap_begin(w->m));
    w->lives = w->rooted = w->boxed = 0;
    w->holds = HEAP_FIRST;
}

static void (*const all[])(world *w) = {
    makes, makes, makes, makes, makes, makes, makes, makes, makes, makes, gets, gets, gets_all,
    walks_path, walks_path, pushes, pushes, pushes, pushes, pops, pops, walks, walks, shares,
    reserves, tidies, promotes, makes_box, writes, writes, lets_go, goes_out,
};

static void *runs(void *given) {
    world *w = given;
    MUST(heap_begin(w->m));
    w->holds = HEAP_FIRST;
    w->steady = ROOM;
    while (w->calls < w->most && w->made < 3 * w->most) {
        all[below(w, sizeof all / sizeof all[0])](w);
        reads_copies(w);
        MUST(heap_answer(w->m));
    }
    MUST(heap_end(w->m));
    return NULL;
}

int main(int argc, char **argv) {
    uint64_t calls = argc > 1 ? strtoull(argv[1], NULL, 10) : 1000000;
    size_t threads = argc > 2 ? strtoull(argv[2], NULL, 10) : 4;
    uint64_t seed = argc > 3 ? strtoull(argv[3], NULL, 10) : 1;
    pthread_t runners[MOST_THREADS];
    collector col = { .spots = spots, .boxes = BOXES, .records = RECORDS, .roots = ROOTS };
    HOLDS(threads >= 1 && threads <= MOST_THREADS);
    col.count = threads;
    collector_starts(&col, (uint32_t)(CELLS * threads), ROOM);
    for (size_t i = 0; i < threads; i++) {
        world *w = &worlds[i];
        *w = (world){ .spot = &spots[i], .m = &spots[i].m, .most = calls / threads };
        w->seed = (seed * MOST_THREADS + i + 1) * UINT64_C(0x9e3779b97f4a7c15);
        w->records = calloc(4 * w->most + 4 * RECORDS, sizeof *w->records);
        HOLDS(w->records != NULL && heap_records(w->m, 1, 1) == HEAP_NOT_ZERO);
        runners[i] = start(runs, w);
    }
    for (size_t i = 0; i < threads; i++) join(runners[i]);
    for (size_t i = 0; i < threads; i++) free(worlds[i].records);
    for (int code = 0; code <= HEAP_PART; code++) {
        uint64_t sum = 0;
        for (size_t i = 0; i < threads; i++) sum += worlds[i].answered[code];
        fprintf(stderr, "%d: %llu ", code, (unsigned long long)sum);
    }
    fprintf(stderr, "\n");
    collector_ends(&col);
    printf("%zu threads: each call answered as the model says\n", threads);
    return 0;
}
