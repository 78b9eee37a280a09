/* heap.h: a heap of cells with five fields, collected while the threads of the program go on. Link
 * with libheap_c.a and the kit's liblibc_c.a. Every call tests what it is given and answers a code:
 * HEAP_OK, or why nothing has changed; but of a move of private records what is done stays. If
 * several reasons apply it may answer any of them.
 *
 * What C owes, since no call can test it:
 *  1 the declarations are these, on x86-64 Linux; some kilobytes of stack are free at each call;
 *  2 a handle is zero (HEAP_ZERO) before its first call, and these calls alone change it; it is
 *    never forged, and never copied but to move it, after which the old one is not used;
 *  3 one call at a time has a handle. Another thread gets it by a lock, a thread's start or join,
 *    or a SeqCst atomic; calls with different handles may run at the same time;
 *  4 pointers are good: `out`, `place`, `how`, `same` have room for one value, `v`, `path` and the
 *    `out` of heap_read_all for as many as is said, and nobody else looks there during the call;
 *  5 malloc, realloc and free are of one allocator, with blocks aligned to 16 bytes;
 *  6 no call is made in a signal handler, or in the forked child of a process with threads.
 * Owed for progress alone: a mutator that is in calls heap_answer often, is parked, or makes cells;
 * else no cycle ends, and nothing is freed from then on. No cell is freed too early by that.
 *
 * A cell has five fields: each is null, a number below 2^62, or a cell. A mutator that is in holds
 * cells at the places 0, 1, 2 .. of its list. Place 0 is the anchor, the one cell that all threads
 * share from the start; no field names it. The others begin at HEAP_FIRST. A call that hands out a
 * cell holds it at the next place. What is held, or reached from there or from the anchor, is not
 * freed.
 * Calls name a place by its number, which is its index as long as no private records have moved. A
 * move (heap_share, heap_reserve) gives the places from its base on new numbers, so that a number
 * from before it is refused, and never taken for another cell; heap_place tells the new one.
 * There are two sorts of cells. A box is made by heap_make, and may be written; the anchor is one.
 * A record never changes, and names records alone. Of each box the first fields, as many as
 * heap_open says, name boxes and the others records; all fields of the anchor name boxes. So with 5
 * there are boxes alone.
 * Records are made in the private memory of a mutator, where making one takes no cell and no place,
 * and those that nobody wants cost nothing. A private record gets a cell, its copy, when it is
 * shared (heap_share) or promoted.
 * Nanoseconds below are of one thread without a collector. */
#ifndef HEAP_H
#define HEAP_H
#include <stddef.h>
#include <stdint.h>
#include <threads.h>
#include <time.h>
#ifdef __cplusplus
#include <atomic>
typedef std::atomic<unsigned> heap_word;
extern "C" {
#else
#include <stdatomic.h>
typedef atomic_uint heap_word;
#endif

typedef enum {
    HEAP_OK = 0,
    HEAP_NO_MEMORY = 1,  /* malloc had none; heap_open, heap_seat and heap_records alone */
    HEAP_BAD_PLACE = 2,  /* no such place or root, or a place's number from before a move; the
                          * anchor's where another is wanted; a record's where a box is wanted; or
                          * a private record names places from there on */
    HEAP_BAD_FIELD = 3,  /* above 4 */
    HEAP_NO_ROOM = 4,    /* too few places are free: see heap_room */
    HEAP_WAIT = 5,       /* no cell is free now: answer, sleep, try again; or heap_make_wait */
    HEAP_MOVED = 6,      /* the field holds something else */
    HEAP_NOT_IN = 7,     /* the mutator is out */
    HEAP_BAD_VALUE = 8,  /* no such tag, a number from 2^62 on, no place from HEAP_FIRST on, a cell
                          * of the other sort, a place or private record from before a move, or a
                          * private record that may not stand there */
    HEAP_IS_IN = 9,      /* the mutator is in already, or in at its end */
    HEAP_NO_HANDLE = 10, /* a handle that is zero: never opened, or ended */
    HEAP_FULL = 11,      /* no cell is free, and two whole cycles did not help; or off duty */
    HEAP_NO_SEAT = 12,   /* all mutators were seated */
    HEAP_SPENT = 13,     /* 4,000,000,000 cycles were made, or private records moved as often */
    HEAP_BAD_SIZE = 14,  /* a number of cells, mutators, places, values .. out of range */
    HEAP_NOT_ZERO = 15,  /* `out` is a handle already, or has private records already */
    HEAP_NO_RECORDS = 16, /* no room for one more private record: heap_reserve */
    HEAP_PART = 17       /* done in part: call it again */
} heap_code;

typedef struct { void *p; } heap_mut;         /* a mutator's handle */
typedef struct { void *p; } heap_col;         /* the collector's */
/* HEAP_NULL; HEAP_NUM n; HEAP_REF, the cell at the place with number n; HEAP_REC, a private record;
 * HEAP_NONE, no value: the code n says why. */
typedef struct { uint64_t tag, n; } heap_val;
enum { HEAP_NULL = 0, HEAP_NUM = 1, HEAP_REF = 2, HEAP_REC = 3, HEAP_NONE = 4 };
enum { HEAP_FIRST = 1, HEAP_FIELDS = 5, HEAP_LEAST_ROOM = 8, HEAP_PATIENCE = 8, HEAP_SLICE = 1000 };
#define HEAP_ZERO { NULL }

/* Opening. cells 1 to 4194304, mutators 1 to 1048576, stack (places of the mark stack) 1 to
 * 1048576, boxes (how many fields of a box name boxes; the others name records) 1 to 5. Takes all
 * memory but that of heap_seat and heap_records: 56 bytes a cell, twice that while it works. The
 * collector is off duty. ms */
heap_code heap_open(uint32_t cells, uint32_t mutators, uint32_t stack, uint32_t boxes,
                    heap_col *out);
/* The next mutator, out; they count from 0. room: places of its list, HEAP_LEAST_ROOM or more.
 * BAD_SIZE, NO_SEAT, NO_MEMORY, NOT_ZERO. us */
heap_code heap_seat(heap_col *c, uint32_t room, heap_mut *out);
heap_code heap_leave(heap_mut *m); /* ends a handle, for good: its seat is not given again. IS_IN */
heap_code heap_close(heap_col *c); /* off duty; ends the handle. The heap goes with its last one */

/* The collector, by steps: no thread is started here, and nothing waits inside. A call makes at
 * most so many moves, about 60 ns each. HEAP_MORE: go on. HEAP_ENDED: a cycle ended just now.
 * HEAP_ASKS: a mutator has to answer first, so heap_serve, sleep, and go on. SPENT: off duty. */
enum { HEAP_MORE = 0, HEAP_ASKS = 1, HEAP_ENDED = 2 };
heap_code heap_step(heap_col *c, uint32_t moves, int *how);
heap_code heap_duty(heap_col *c, int on); /* on: steps are made, so heap_make says WAIT, not FULL */
typedef struct {
    uint32_t cycles, stage;    /* ended; 0 idle, 1 sync1, 2 clear, 3 sync2, 4 trace, 5 sweep */
    uint32_t heard, asks;      /* asks 1: mutator number `heard` has to answer first */
    uint64_t freed;            /* cells, since the opening */
    uint64_t free_about;       /* now: all cells of those blocks of 512 that have a free one */
    uint64_t passes, scanned;  /* of tracing: passes over the heap, cells whose fields were read */
    uint64_t stacked, spilled; /* children put on the mark stack, and those that found it full */
} heap_stats;
heap_code heap_look(heap_col *c, heap_stats *out);

/* A mutator comes in, and holds the anchor alone; IS_IN. It goes out, and holds nothing; NOT_IN.
 * The other calls want it in, or answer NOT_IN. */
heap_code heap_begin(heap_mut *m);
heap_code heap_end(heap_mut *m);
heap_code heap_answer(heap_mut *m); /* the safe point: 4 ns, or a mark for each place it holds */
size_t heap_held(heap_mut *m);      /* how many places it holds; 0 out or without a handle */
size_t heap_room(heap_mut *m);      /* how many more it may hold; 0 out or without a handle */
/* Keeps the first n places, the anchor's at least, and then `count` from `place` on, without the
 * anchor's; `place` is not looked at if count is 0. A frame notes heap_held at its entry, and at
 * its exit keeps (base, 0, 0), or (base, p, 1) to hand on a result; (heap_held(m), p, 1) copies
 * place p to the next one. BAD_PLACE, also where a private record, a copy or a root of the stack
 * names a place from n on (heap_release does not mind); NO_ROOM. 6 ns */
heap_code heap_keep(heap_mut *m, size_t n, size_t place, size_t count);
/* The number of the i-th place, from 0; heap_index gives the i of a number. BAD_PLACE */
heap_code heap_place(heap_mut *m, size_t i, size_t *place);
/* A new box of n values, 5 at most, the other fields null. The safe point too. 1 place free, or
 * NO_ROOM; BAD_SIZE, BAD_VALUE, WAIT, FULL. 70 ns. make_at: and then heap_keep(m, keep, it, 1). */
heap_code heap_make(heap_mut *m, const heap_val *v, size_t n, size_t *place);
heap_code heap_make_at(heap_mut *m, size_t keep, const heap_val *v, size_t n, size_t *place);
/* One load, of a box or of a shared record. 1 place free (read_all: 5), or NO_ROOM; BAD_PLACE,
 * BAD_FIELD. 4 ns, a cell 10. All five fields one after the other, not of the anchor; five is 5, or
 * BAD_SIZE. 16 ns */
heap_code heap_read(heap_mut *m, size_t place, size_t field, heap_val *out);
heap_code heap_read_all(heap_mut *m, size_t place, heap_val *out, size_t five);
/* A store into a box, whatever stands there: 1 place free, or NO_ROOM; BAD_PLACE, BAD_FIELD,
 * BAD_VALUE; MOVED if others wrote the field again and again in one moment of a cycle. 18 ns. One
 * compare and exchange: MOVED if the field holds another value than `was`. 15 ns */
heap_code heap_write(heap_mut *m, size_t place, size_t field, heap_val v);
heap_code heap_swap(heap_mut *m, size_t place, size_t field, heap_val was, heap_val now);
heap_code heap_same(heap_mut *m, size_t one, size_t other, int *same); /* are they one cell? 5 ns */

/* Private records. A mutator gets memory for `records` of them, 1 to 4194304, and for a stack of
 * `roots`, 1048576 at most: about 115 bytes a record, 40 a root. Once, while it is out. IS_IN,
 * NOT_ZERO, BAD_SIZE, NO_MEMORY.
 *
 * A reference, of tag HEAP_REC, is good until private records move, which heap_reserve, heap_share
 * and heap_end alone do: from then on every call answers BAD_VALUE to it. The number of a place is
 * refused in the same way, unless the place was below the base of every move: it is its index then.
 * What is on the stack of roots moves along. A private record, the copy of one and a root of tag
 * HEAP_REF name places of the held list; those places stay until the records go (heap_keep,
 * heap_release). */
heap_code heap_records(heap_mut *m, uint32_t records, uint32_t roots);
/* A private record of five values: null, numbers, private records, and places of shared records. A
 * byte of `kinds` for each tag, that of the first field lowest; heap_record below takes values. It
 * never moves a record. Or HEAP_NONE, with the code: NO_HANDLE, NOT_IN, BAD_VALUE, NO_RECORDS, or
 * SPENT, where private records have moved as often as they can. */
heap_val heap_new(heap_mut *m, uint64_t kinds, uint64_t a, uint64_t b, uint64_t c, uint64_t d,
                  uint64_t e);
/* A field of a private record, or of the cell at a place, which heap_read reads: a cell that it
 * finds there is held at the next place. All five fields. BAD_VALUE; BAD_FIELD, BAD_SIZE; BAD_PLACE
 * (the anchor's fields one by one); NO_ROOM */
heap_code heap_get(heap_mut *m, heap_val of, size_t field, heap_val *out);
heap_code heap_get_all(heap_mut *m, heap_val of, heap_val *out, size_t five);
/* Along a path: a field of `of` as heap_get reads it, a field of what that gave, and so on; `path`
 * has the n numbers, and `out` gets what the last one gave. What was passed is not held: after OK a
 * cell that was read last is at the next place, and one that a private record names is where it
 * was. On the way each cell that is read takes a place, so n free places are always enough. Or what
 * heap_get says of a step that was refused, as BAD_VALUE where the path goes on from null or a
 * number; then no place more is held. BAD_SIZE: n is 0 */
heap_code heap_walk(heap_mut *m, heap_val of, const uint8_t *path, size_t n, heap_val *out);
/* The stack of roots, counted from the oldest; a root is any value. heap_pop lets the newest n go.
 * NO_ROOM where the stack is full; BAD_VALUE; BAD_PLACE where there are not so many. */
size_t heap_roots(heap_mut *m); /* how many there are; 0 out or without a handle */
heap_code heap_push(heap_mut *m, heap_val v);
heap_code heap_pop(heap_mut *m, size_t n);
heap_code heap_root(heap_mut *m, size_t i, heap_val *out);
heap_code heap_set(heap_mut *m, size_t i, heap_val v);
/* Makes room for so many more private records and places, by one step at most.
 * OK: there is such room. So many heap_new are not refused, and so many places are free.
 * PART: a step was made, and there are more to come: call it again.
 * WAIT, FULL: no cell was free for a copy. Nothing is lost: the next call goes on.
 * NO_ROOM: there are too few places for a share, or for `places` after one.
 * BAD_PLACE: base, as in heap_share. BAD_SIZE: more records than there can be.
 * SPENT: private records moved 4294967295 times, so they and places move no more. Nothing was done.
 * After OK, PART and NO_ROOM private records may have moved: heap_root gives references again.
 *
 * It does nothing where there is such room, and places besides for a share of all later: one for
 * each record, there or asked for, and one for each root. Where there are so many places, but not
 * room for the records, it lets private records go that no root leads to, and the others move; but
 * not while a record may have a copy, or was kept by such a step before. Else it makes a step of
 * heap_share, of at most 1000 copies, or an eighth of the room for records if that is more: nothing
 * moves until the last step, after which no private record is left.
 *
 * Who reserves so before all else never lacks the places for a share, if heap_seat was given base +
 * places + the room for records + twice that for roots, or more. */
heap_code heap_reserve(heap_mut *m, size_t base, uint32_t records, size_t places);
/* Makes cells of the private records that the roots lead to, `most` of them at most (1 or more),
 * and answers PART where there are more to come: nothing has moved then. OK: the held list is its
 * first `base` places, 1 at least, and then each root that is a cell, in order; those roots are
 * HEAP_REF now, and no private record is left. WAIT and FULL lose nothing: the copies stay.
 * NO_ROOM: it takes a place for each copy, and one for each root at the end, besides those that are
 * held (roots that are null or numbers count too). SPENT. A safe point where it makes a cell. */
heap_code heap_share(heap_mut *m, size_t base, size_t most);
/* The same for one private record, which may be a root or not: nothing moves, and the place holds
 * its copy. */
heap_code heap_promote(heap_mut *m, heap_val rec, size_t most, size_t *place);
/* Keeps the first n places, and those up to the last one that a private record, a copy or a root
 * names. BAD_PLACE */
heap_code heap_release(heap_mut *m, size_t n);

#ifdef __cplusplus
}
#endif

static inline heap_val heap_null(void) { heap_val v = { HEAP_NULL, 0 }; return v; }
static inline heap_val heap_num(uint64_t n) { heap_val v = { HEAP_NUM, n }; return v; }
static inline heap_val heap_ref(size_t place) { heap_val v = { HEAP_REF, place }; return v; }
static inline size_t heap_index(size_t place) { return place & UINT32_MAX; }

static inline void heap_sleep(void) {
    struct timespec time = { 0, 50000 };
    (void)thrd_sleep(&time, NULL);
}

/* Whether to try again: no cell was free. It answers and sleeps first. FULL is believed when it was
 * answered HEAP_PATIENCE times, since others may take what a cycle frees. */
static inline int heap_again(heap_mut *m, heap_code code, int *fulls) {
    if (code != HEAP_WAIT && (code != HEAP_FULL || ++*fulls >= HEAP_PATIENCE)) return 0;
    (void)heap_answer(m);
    heap_sleep();
    return 1;
}

/* These wait while no cell is free. */
static inline heap_code heap_make_wait(heap_mut *m, const heap_val *v, size_t n, size_t *place) {
    int fulls = 0;
    heap_code code;
    do code = heap_make(m, v, n, place); while (heap_again(m, code, &fulls));
    return code;
}

static inline heap_code heap_make_at_wait(heap_mut *m, size_t keep, const heap_val *v, size_t n,
                                          size_t *place) {
    int fulls = 0;
    heap_code code;
    do code = heap_make_at(m, keep, v, n, place); while (heap_again(m, code, &fulls));
    return code;
}

static inline heap_val heap_record(heap_mut *m, heap_val a, heap_val b, heap_val c, heap_val d,
                                   heap_val e) {
    return heap_new(m, a.tag | b.tag << 8 | c.tag << 16 | d.tag << 24 | e.tag << 32, a.n, b.n, c.n,
                    d.n, e.n);
}

static inline heap_code heap_why(heap_val v) {
    return v.tag == HEAP_NONE ? (heap_code)v.n : HEAP_OK;
}

static inline heap_code heap_reserve_wait(heap_mut *m, size_t base, uint32_t records,
                                          size_t places) {
    int fulls = 0;
    heap_code code;
    do code = heap_reserve(m, base, records, places);
    while (code == HEAP_PART || heap_again(m, code, &fulls));
    return code;
}

static inline heap_code heap_share_wait(heap_mut *m, size_t base) {
    int fulls = 0;
    heap_code code;
    do code = heap_share(m, base, HEAP_SLICE);
    while (code == HEAP_PART || heap_again(m, code, &fulls));
    return code;
}

static inline heap_code heap_promote_wait(heap_mut *m, heap_val rec, size_t *place) {
    int fulls = 0;
    heap_code code;
    do code = heap_promote(m, rec, HEAP_SLICE, place);
    while (code == HEAP_PART || heap_again(m, code, &fulls));
    return code;
}

/* A write of any value: a private record is promoted first. Waits while no cell is free. */
static inline heap_code heap_put(heap_mut *m, size_t place, size_t field, heap_val v) {
    size_t at;
    if (v.tag == HEAP_REC) {
        heap_code code = heap_promote_wait(m, v, &at);
        if (code != HEAP_OK) return code;
        v = heap_ref(at);
    }
    return heap_write(m, place, field, v);
}

/* Blocking. A thread parks its mutator, blocks, and takes it back; it holds what it held, and who
 * makes the steps answers for it. One word, HEAP_OWNED at first, says who has the handle; between
 * heap_park and heap_unpark its own thread makes no call with it. */
typedef struct { heap_mut m; heap_word who; } heap_spot;
enum { HEAP_OWNED = 0, HEAP_PARKED = 1, HEAP_ANSWERED = 2 };

static inline void heap_park(heap_spot *s) { atomic_store(&s->who, (unsigned)HEAP_PARKED); }

static inline void heap_unpark(heap_spot *s) {
    unsigned was = HEAP_PARKED;
    while (!atomic_compare_exchange_strong(&s->who, &was, (unsigned)HEAP_OWNED)) {
        was = HEAP_PARKED;
        thrd_yield();
    }
}

/* Answers for those of n spots that are parked. For the thread that makes the steps. */
static inline void heap_serve(heap_spot *s, size_t n) {
    for (size_t i = 0; i < n; i++) {
        unsigned was = HEAP_PARKED;
        if (!atomic_compare_exchange_strong(&s[i].who, &was, (unsigned)HEAP_ANSWERED)) continue;
        (void)heap_answer(&s[i].m);
        atomic_store(&s[i].who, (unsigned)HEAP_PARKED);
    }
}
#endif
