/* What the programs over private records share: calls that move records or copy them, timed, and
 * made again while they did a part, or no cell was free. */
#ifndef RECORDS_H
#define RECORDS_H
#include "figures.h"
#include "support.h"

/* At most so many records are shared in one call, so that none takes long. Each call looks for what
 * is reached again, so a few thousand are better than a few. */
enum { SLICE = 16384 };

typedef struct {
    heap_mut *m;
    longest *most;
    uint64_t first, from; /* when the first call began, and this one */
    int fulls, waits;
} tries;

static inline tries tries_of(heap_mut *m, longest *most) {
    uint64_t now = begins();
    return (tries){ .m = m, .most = most, .first = now, .from = now };
}

/* Whether to make a call again that answered this. */
static inline int goes_on(tries *t, heap_code code) {
    ends(t->from, &t->most->call);
    if (code == HEAP_PART) {
        MUST(heap_answer(t->m));
    } else if (heap_again(t->m, code, &t->fulls)) {
        t->waits = 1;
    } else {
        if (t->waits) ends(t->first, &t->most->wait);
        MUST(code);
        return 0;
    }
    t->from = begins();
    return 1;
}

/* After this so many records can be made, and so many places taken, and nothing moves. */
static inline void reserve(heap_mut *m, longest *most, uint32_t records, size_t places) {
    tries t = tries_of(m, most);
    while (goes_on(&t, heap_reserve(m, HEAP_FIRST, records, places))) continue;
}

/* All that the roots lead to is shared, and their cells are held from HEAP_FIRST on. */
static inline void share(heap_mut *m, longest *most) {
    tries t = tries_of(m, most);
    while (goes_on(&t, heap_share(m, HEAP_FIRST, SLICE))) continue;
}

/* A record's copy, at a place; another value as it is. */
static inline heap_val promoted(heap_mut *m, longest *most, heap_val v) {
    tries t = tries_of(m, most);
    size_t place = 0;
    if (v.tag != HEAP_REC) return v;
    while (goes_on(&t, heap_promote(m, v, SLICE, &place))) continue;
    return heap_ref(place);
}

static inline heap_val root(heap_mut *m, size_t i) {
    heap_val v;
    MUST(heap_root(m, i, &v));
    return v;
}
#endif
