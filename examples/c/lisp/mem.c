/* How values lie in records and boxes, and all calls of the heap. */
#define _POSIX_C_SOURCE 200809L
#include "mem.h"
#include "../heap.h"
#include <pthread.h>
#include <stdio.h>
#include <stdlib.h>
#include <string.h>

enum { STEP = 500, STACK = 65536, BYTES = 7, CHUNK = 3 * BYTES };
enum { WORD = 0, FIRST = 1, REST = 2 };                         /* of a pair */
enum { NAME = 1 };                                              /* of a symbol */
enum { MORE = 4 };                                              /* of a text */
enum { VALUE = 1, NEXT = 2 };                                   /* of a binding */
enum { BOXES = 3, LEFT = 0, RIGHT = 1, HELD = 3, OUTCOME = 4 }; /* of a box */
enum { SYMBOLS = 0, NUMBERED = 1, TREES = 2 }; /* fields of the anchor, a seat's first slots */
enum { CACHED = 256 };                         /* and the slots after these */
enum { STATES = 32 };

/* A seat's private heap has so many records, and its held list so many places: for the cells that
 * are in slots, those that were read, and at a share a copy of each record and each root once more.
 */
#ifdef MEM_CHECK
enum { RECORDS = 64 };
#else
enum { RECORDS = 4096 };
#endif
enum { BASE = HEAP_FIRST, LEAST_READ = 64, FEW = 16, MOST_READ = 16 * RECORDS };
enum { ROOM = 3 * MEM_SLOTS + 18 * RECORDS };

struct mem {
    heap_spot spot;
    size_t top;              /* how many slots are taken */
    uint64_t cached[CACHED]; /* 1 more than the number whose box is in the slot, or 0 */
    int has_records;         /* it has a private heap */
    int has_copies;          /* some of its private records may have been promoted */
    size_t read;             /* how many cells were read since private records were shared */
    void (*handler)(void *owner, mem_fault fault);
    void *owner;
#ifdef MEM_CHECK
    uint64_t stamps[MEM_SLOTS], last;
#endif
};

static heap_col col = HEAP_ZERO;
static struct mem seats[MEM_SEATS];
static int is_always;
static size_t most_read; /* cells that a thread reads before it lets them go */
static FILE *told; /* a line for each cycle, if it is there */
static pthread_t collector;
static atomic_int over, wanted;
static atomic_ullong cycles, used, numbers;

/* Ends the program unless the call did its work: everything else is a fault of this program. */
#define MUST(call) must((call), #call, __LINE__)
static void must(heap_code code, const char *call, int line) {
    if (code == HEAP_OK) return;
    fprintf(stderr, "mem.c:%d: %s answered %d\n", line, call, (int)code);
    abort();
}

/* The same of a call that may be out of room, or out of cells. */
#define ASK(m, call) ask((m), (call), #call, __LINE__)
static void ask(mem *m, heap_code code, const char *call, int line) {
    if (code == HEAP_NO_ROOM) m->handler(m->owner, MEM_DEEP);
    if (code == HEAP_FULL) m->handler(m->owner, MEM_FULL);
    must(code, call, line);
}

/* A value as the heap has it now, and back. The first one is good until records move. */
static heap_val plain(mem *m, value v) {
    heap_val it = { v.tag, v.n };
#ifdef MEM_CHECK
    if (v.tag == CELL && (v.n >= m->top || m->stamps[v.n] != v.stamp)) {
        fprintf(stderr, "a value is used whose slot %zu was let go\n", (size_t)v.n);
        abort();
    }
#endif
    if (v.tag == CELL) MUST(heap_root(&m->spot.m, v.n, &it));
    return it;
}

static value in_slot(mem *m, size_t slot) {
    value it = { .tag = CELL, .n = slot };
#ifdef MEM_CHECK
    it.stamp = m->stamps[slot];
#else
    (void)m;
#endif
    return it;
}

static value taken(mem *m, heap_val v) {
    if (v.tag != HEAP_REF && v.tag != HEAP_REC) return (value){ .tag = v.tag, .n = v.n };
    ASK(m, heap_push(&m->spot.m, v));
#ifdef MEM_CHECK
    m->stamps[m->top] = ++m->last;
#endif
    return in_slot(m, m->top++);
}

/* The collector's thread. A cycle begins if an eighth of the blocks that had free cells after the
 * last one have none, or somebody found no cell. */

static heap_stats look(void) {
    heap_stats stats;
    MUST(heap_look(&col, &stats));
    return stats;
}

static void tell(heap_stats before, heap_stats now) {
    atomic_store(&cycles, now.cycles);
    atomic_store(&used, now.scanned - before.scanned);
    if (told)
        fprintf(told, "%llu %llu\n", (unsigned long long)(now.scanned - before.scanned),
                (unsigned long long)now.freed);
}

static void *collect(void *unused) {
    heap_stats last = look();
    int how = HEAP_ENDED;
    while (!atomic_load(&over)) {
        if (how == HEAP_ENDED && !is_always && !atomic_exchange(&wanted, 0) &&
            look().free_about >= last.free_about - last.free_about / 8) {
            heap_sleep();
            continue;
        }
        MUST(heap_step(&col, STEP, &how));
        if (how == HEAP_ENDED) {
            heap_stats now = look();
            tell(last, now);
            last = now;
        }
        if (how != HEAP_ASKS) continue;
        for (size_t i = 0; i < MEM_SEATS; i++) heap_serve(&seats[i].spot, 1);
        thrd_yield();
    }
    return unused;
}

int mem_open(uint32_t cells, int always, FILE *cycle_lines) {
    is_always = always;
    most_read = cells / FEW < MOST_READ ? cells / FEW : MOST_READ;
    if (most_read < LEAST_READ) most_read = LEAST_READ;
    told = cycle_lines;
    if (told) fprintf(told, "%u\n", (unsigned)cells);
    if (heap_open(cells, MEM_SEATS, STACK, BOXES, &col) != HEAP_OK) return 0;
    for (size_t i = 0; i < MEM_SEATS; i++)
        if (heap_seat(&col, ROOM, &seats[i].spot.m) != HEAP_OK) return 0;
    MUST(heap_duty(&col, 1));
    return pthread_create(&collector, NULL, collect, NULL) == 0;
}

void mem_close(void) {
    atomic_store(&over, 1);
    pthread_join(collector, NULL);
    for (size_t i = 0; i < MEM_SEATS; i++) MUST(heap_leave(&seats[i].spot.m));
    MUST(heap_close(&col));
}

uint64_t mem_cycles(void) { return atomic_load(&cycles); }
int64_t mem_used(void) { return (int64_t)atomic_load(&used); }

/* Seats. */

mem *mem_seat(size_t number) { return &seats[number]; }

void mem_on_fault(mem *m, void (*handler)(void *owner, mem_fault fault), void *owner) {
    m->handler = handler;
    m->owner = owner;
}

/* Whether to try again what found no cell, or shared a part. */
static int again(mem *m, heap_code code, int *fulls) {
    if (code == HEAP_PART) return heap_answer(&m->spot.m) == HEAP_OK;
    if (code == HEAP_OK) return 0;
    atomic_store(&wanted, 1);
    return heap_again(&m->spot.m, code, fulls);
}

void mem_answer(mem *m) { MUST(heap_answer(&m->spot.m)); }
void mem_park(mem *m) { heap_park(&m->spot); }
void mem_unpark(mem *m) { heap_unpark(&m->spot); }

/* Frames. */

size_t mem_frame(mem *m) { return m->top; }

void mem_leave(mem *m, size_t frame) {
    if (m->top == frame) return;
    MUST(heap_pop(&m->spot.m, m->top - frame));
    m->top = frame;
}

static int is_within(value v, size_t frame) { return is_cell(v) && v.n >= frame; }

value mem_give(mem *m, size_t frame, value v) {
    heap_val it = plain(m, v);
    mem_leave(m, frame);
    return is_within(v, frame) ? taken(m, it) : v;
}

void mem_give_two(mem *m, size_t frame, value *one, value *other) {
    heap_val first = plain(m, *one), second = plain(m, *other);
    mem_leave(m, frame);
    if (is_within(*one, frame)) *one = taken(m, first);
    if (is_within(*other, frame)) *other = taken(m, second);
}

/* Moving records. Whatever is needed stands in slots then, and moves with its record. */

/* Shares all that slots lead to: no private record is left, nor a copy of one that went. */
static heap_code try_share(mem *m, int fulls) {
    heap_code code;
    do code = heap_share(&m->spot.m, BASE, HEAP_SLICE); while (again(m, code, &fulls));
    if (code != HEAP_OK) return code;
    m->has_copies = 0;
    m->read = 0;
    return code;
}

static void share(mem *m) { ASK(m, try_share(m, 0)); }

void mem_recover(mem *m) { (void)try_share(m, HEAP_PATIENCE); }

/* Makes room in the private heap. Records age once there, but where some have copies all are shared
 * at once: then no record gets a second copy, and one value stays one cell. */
static void make_room(mem *m) {
    int fulls = 0;
    heap_code code;
    if (m->has_copies) { share(m); return; }
    do code = heap_reserve(&m->spot.m, BASE, RECORDS / 2, 0); while (again(m, code, &fulls));
    ASK(m, code);
}

/* Before cells are read or made. What is read stays held until records are shared. */
static void make_places(mem *m) {
    if (m->read > most_read + m->top) share(m);
}

/* Has the slot name a shared cell, which a box may name. */
static void promote(mem *m, value v) {
    size_t place = 0;
    int fulls = 0;
    heap_code code;
    if (plain(m, v).tag == HEAP_REC) make_places(m);
    heap_val it = plain(m, v);
    if (it.tag != HEAP_REC) return;
    m->has_copies = 1;
    do code = heap_promote(&m->spot.m, it, HEAP_SLICE, &place); while (again(m, code, &fulls));
    ASK(m, code);
    MUST(heap_set(&m->spot.m, v.n, heap_ref(place)));
}

/* Records. */

static value make(mem *m, uint64_t kind, uint64_t info, const value fields[], size_t n) {
    for (;;) {
        heap_val f[HEAP_FIELDS] = { heap_num(kind + KINDS * info) };
        for (size_t i = 0; i < n; i++) f[i + 1] = plain(m, fields[i]);
        heap_val it = heap_record(&m->spot.m, f[0], f[1], f[2], f[3], f[4]);
        if (it.tag == HEAP_REC) return taken(m, it);
        if (heap_why(it) != HEAP_NO_RECORDS) MUST(heap_why(it));
        make_room(m);
    }
}

static heap_val get(mem *m, heap_val cell, size_t field) {
    heap_val out;
    MUST(heap_get(&m->spot.m, cell, field, &out));
    m->read += cell.tag == HEAP_REF && out.tag == HEAP_REF;
    return out;
}

static value field(mem *m, value cell, size_t field) {
    make_places(m);
    return taken(m, get(m, plain(m, cell), field));
}

uint64_t mem_word(mem *m, value cell) { return get(m, plain(m, cell), WORD).n; }

void mem_parts(mem *m, value cell, value parts[4]) {
    heap_val all[HEAP_FIELDS];
    make_places(m);
    MUST(heap_get_all(&m->spot.m, plain(m, cell), all, HEAP_FIELDS));
    m->read += HEAP_FIELDS;
    for (size_t i = 1; i < HEAP_FIELDS; i++) parts[i - 1] = taken(m, all[i]);
}

/* A private record and a shared one are the same if this is the other's copy. */
int mem_same(mem *m, value one, value other) {
    int same = 0;
    if (!is_cell(one) || !is_cell(other)) return one.tag == other.tag && one.n == other.n;
    heap_val first = plain(m, one), second = plain(m, other);
    if (first.tag == HEAP_REC && second.tag == HEAP_REC) return first.n == second.n;
    if (first.tag != second.tag && !m->has_copies) return 0;
    promote(m, one);
    promote(m, other);
    MUST(heap_same(&m->spot.m, plain(m, one).n, plain(m, other).n, &same));
    return same;
}

value mem_pair(mem *m, uint64_t at, value first, value rest) {
    return make(m, PAIR, at, (value[]){ first, rest }, 2);
}

void mem_open_pair(mem *m, value pair, value *first, value *rest) {
    make_places(m);
    heap_val it = plain(m, pair), end = get(m, it, REST);
    *first = taken(m, get(m, it, FIRST));
    *rest = taken(m, end);
}

value mem_closure(mem *m, value parameters, value body, value bindings, value name) {
    return make(m, CLOSURE, 0, (value[]){ parameters, body, bindings, name }, 4);
}

value mem_builtin(mem *m, size_t number) { return make(m, BUILTIN, number, NULL, 0); }

value mem_binding(mem *m, uint64_t symbol, value v, value next) {
    return make(m, BINDING, symbol, (value[]){ v, next }, 2);
}

/* Nothing moves on the way, and of what is read the last binding alone stays held. */
int mem_find(mem *m, value bindings, uint64_t symbol, value *v) {
    make_places(m);
    size_t held = heap_held(&m->spot.m), read = m->read, place = 0;
    heap_val at = plain(m, bindings);
    while (at.tag != HEAP_NULL && info_of(get(m, at, WORD).n) != symbol) {
        at = get(m, at, NEXT);
        if (at.tag != HEAP_REF || heap_index(at.n) <= held) continue;
        MUST(heap_keep(&m->spot.m, held, at.n, 1));
        MUST(heap_place(&m->spot.m, held, &place));
        at = heap_ref(place);
    }
    m->read = read + 1;
    if (at.tag == HEAP_NULL) return 0;
    *v = taken(m, get(m, at, VALUE));
    return 1;
}

/* A text is a chain of cells, each with how many bytes are in it and after it, and 21 of them. */
value mem_text(mem *m, const char *text, size_t length) {
    size_t frame = mem_frame(m), at = length ? (length - 1) / CHUNK * CHUNK : 0;
    value it = nil();
    for (;;) {
        value fields[MORE] = { number(0), number(0), number(0), it };
        for (size_t i = at; i < length && i < at + CHUNK; i++)
            fields[(i - at) / BYTES].n |= (uint64_t)(unsigned char)text[i] << 8 * (i % BYTES);
        it = mem_give(m, frame, make(m, TEXT, length - at, fields, MORE));
        if (at == 0) return it;
        at -= CHUNK;
    }
}

size_t mem_chars(mem *m, value text, char out[MEM_TEXT]) {
    size_t frame = mem_frame(m), length = (size_t)info_of(mem_word(m, text));
    value parts[MORE];
    for (size_t i = 0; i < length; i++) {
        if (i % CHUNK == 0) mem_parts(m, text, parts);
        out[i] = (char)(parts[i % CHUNK / BYTES].n >> 8 * (i % BYTES) & 255);
        text = parts[MORE - 1];
    }
    mem_leave(m, frame);
    return length;
}

/* Boxes: what may change. A box names boxes by its first fields, and records by the others, so a
 * value is promoted before it is written there. */

static void set_field(mem *m, value box, size_t field, value v) {
    heap_code code;
    promote(m, v);
    make_places(m);
    do code = heap_write(&m->spot.m, plain(m, box).n, field, plain(m, v));
    while (code == HEAP_MOVED);
    MUST(code);
}

static int swap_field(mem *m, value box, size_t field, value was, value now) {
    promote(m, was);
    promote(m, now);
    heap_code code =
        heap_swap(&m->spot.m, plain(m, box).n, field, plain(m, was), plain(m, now));
    if (code != HEAP_MOVED) MUST(code);
    return code == HEAP_OK;
}

static value new_box(mem *m, value held) {
    size_t place = 0;
    int fulls = 0;
    heap_code code;
    promote(m, held);
    make_places(m);
    heap_val all[HEAP_FIELDS] = { [HELD] = plain(m, held) };
    do code = heap_make(&m->spot.m, all, HEAP_FIELDS, &place); while (again(m, code, &fulls));
    ASK(m, code);
    m->read++;
    return taken(m, heap_ref(place));
}

/* The box at a field of the anchor, which the first thread of all puts there. */
static void take_tree(mem *m, size_t field) {
    heap_val found;
    MUST(heap_read(&m->spot.m, 0, field, &found));
    if (found.tag == HEAP_NULL)
        MUST(heap_write(&m->spot.m, 0, field, plain(m, new_box(m, nil()))));
    else
        (void)taken(m, found);
}

int mem_enter(mem *m) {
    if (!m->has_records && heap_records(&m->spot.m, RECORDS, MEM_SLOTS) != HEAP_OK) return 0;
    m->has_records = 1;
    m->has_copies = 0;
    memset(m->cached, 0, sizeof m->cached);
    MUST(heap_begin(&m->spot.m));
    for (size_t i = 0; i < TREES; i++) take_tree(m, i);
    for (; m->top < TREES + CACHED; m->top++) MUST(heap_push(&m->spot.m, heap_null()));
    return 1;
}

void mem_exit(mem *m) {
    MUST(heap_end(&m->spot.m));
    m->top = m->read = 0;
}

/* The box of a number. A record cannot name a box, so a symbol, an atom and a task have numbers,
 * whose digits are the way to the box in a tree of all of them: it is made if it is not there. The
 * box stands in a slot of its own, until another number needs that. */
static value box_of(mem *m, uint64_t number) {
    size_t frame = mem_frame(m), depth = 0, way[64], slot = TREES + number % CACHED;
    if (m->cached[number % CACHED] == number + 1) return in_slot(m, slot);
    value at = in_slot(m, NUMBERED);
    for (uint64_t n = number; n > 0; n = (n - 1) / BOXES) way[depth++] = (n - 1) % BOXES;
    while (depth > 0) {
        value next = field(m, at, way[depth - 1]);
        if (is_nil(next)) {
            (void)swap_field(m, at, way[depth - 1], nil(), new_box(m, nil()));
            continue;
        }
        at = mem_give(m, frame, next);
        depth--;
    }
    MUST(heap_set(&m->spot.m, slot, plain(m, at)));
    m->cached[number % CACHED] = number + 1;
#ifdef MEM_CHECK
    m->stamps[slot] = ++m->last;
#endif
    mem_leave(m, frame);
    return in_slot(m, slot);
}

static value numbered(mem *m, value cell) { return box_of(m, info_of(mem_word(m, cell))); }

/* Symbols are a tree of boxes, by a hash of the name and then by the name. A new one is put at its
 * end by one compare and exchange. */

static uint64_t hash_of(const char *name, size_t length) {
    uint64_t hash = UINT64_C(2166136261); /* 32 bits of Fowler, Noll and Vo */
    for (size_t i = 0; i < length; i++)
        hash = (hash ^ (unsigned char)name[i]) * 16777619 % 4294967296;
    return hash;
}

/* How a name compares with a symbol's: below, the same, above. */
static int compare(mem *m, const char *name, size_t length, uint64_t hash, value symbol) {
    uint64_t its = info_of(mem_word(m, symbol)) >> SYMBOL_BITS;
    char text[MEM_TEXT];
    if (hash != its) return hash < its ? -1 : 1;
    size_t other = mem_chars(m, mem_name(m, symbol), text);
    int order = memcmp(name, text, length < other ? length : other);
    return order ? order : (length > other) - (length < other);
}

static value new_symbol(mem *m, const char *name, size_t length, uint64_t hash) {
    value text = mem_text(m, name, length);
    uint64_t number = atomic_fetch_add(&numbers, 1);
    if (number >> SYMBOL_BITS) m->handler(m->owner, MEM_FULL);
    return new_box(m, make(m, SYMBOL, hash << SYMBOL_BITS | number, &text, 1));
}

value mem_symbol(mem *m, const char *name, size_t length) {
    size_t frame = mem_frame(m), link = RIGHT;
    uint64_t hash = hash_of(name, length);
    value at = in_slot(m, SYMBOLS), new = nil();
    for (;;) {
        value box = field(m, at, link);
        if (is_nil(box)) {
            if (is_nil(new)) new = new_symbol(m, name, length, hash);
            (void)swap_field(m, at, link, nil(), new);
            continue;
        }
        value symbol = field(m, box, HELD);
        int order = compare(m, name, length, hash, symbol);
        if (order == 0) return mem_give(m, frame, symbol);
        at = box;
        link = order < 0 ? LEFT : RIGHT;
    }
}

value mem_name(mem *m, value symbol) { return field(m, symbol, NAME); }

/* A symbol's box has a binding with its global value, or null. */
int mem_global(mem *m, value symbol, value *v) {
    size_t frame = mem_frame(m);
    value binding = field(m, box_of(m, symbol_number(info_of(mem_word(m, symbol)))), HELD);
    if (is_nil(binding)) return 0;
    *v = mem_give(m, frame, field(m, binding, VALUE));
    return 1;
}

void mem_define(mem *m, value symbol, value v) {
    size_t frame = mem_frame(m);
    uint64_t info = info_of(mem_word(m, symbol));
    value binding = mem_binding(m, info, v, nil());
    set_field(m, box_of(m, symbol_number(info)), HELD, binding);
    mem_leave(m, frame);
}

/* Atoms and tasks are records of a number. */

static value new_numbered(mem *m, uint64_t kind, value held) {
    size_t frame = mem_frame(m);
    uint64_t number = atomic_fetch_add(&numbers, 1);
    set_field(m, box_of(m, number), HELD, held);
    return mem_give(m, frame, make(m, kind, number, NULL, 0));
}

value mem_atom(mem *m, value v) { return new_numbered(m, ATOM, v); }

value mem_get(mem *m, value atom) {
    size_t frame = mem_frame(m);
    return mem_give(m, frame, field(m, numbered(m, atom), HELD));
}

void mem_set(mem *m, value atom, value v) {
    size_t frame = mem_frame(m);
    set_field(m, numbered(m, atom), HELD, v);
    mem_leave(m, frame);
}

int mem_swap(mem *m, value atom, value was, value now) {
    size_t frame = mem_frame(m);
    int is_done = swap_field(m, numbered(m, atom), HELD, was, now);
    mem_leave(m, frame);
    return is_done;
}

value mem_task(mem *m, value function) { return new_numbered(m, TASK, function); }
value mem_work(mem *m, value task) { return mem_get(m, task); }

void mem_settle(mem *m, value task, uint64_t state, uint64_t at, value v) {
    size_t frame = mem_frame(m);
    value box = numbered(m, task);
    set_field(m, box, HELD, v);
    set_field(m, box, OUTCOME, number((int64_t)(at * STATES + state))); /* last: who sees it .. */
    mem_leave(m, frame);
}

uint64_t mem_settled(mem *m, value task, uint64_t *at, value *v) {
    size_t frame = mem_frame(m);
    value box = numbered(m, task);
    uint64_t outcome = field(m, box, OUTCOME).n;
    if (outcome == 0) return mem_leave(m, frame), 0;
    *at = outcome / STATES;
    *v = mem_give(m, frame, field(m, box, HELD)); /* .. sees the value */
    return outcome % STATES;
}

/* The record is made again there. Its number is all that goes over. */
value mem_hand(mem *from, value task, mem *to) {
    return make(to, TASK, info_of(mem_word(from, task)), NULL, 0);
}
