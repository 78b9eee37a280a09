#include "hostile.h"

enum { ROOM = MODEL_ROOM };

uint64_t pick(uint64_t *random, uint64_t n) {
    uint64_t z = (*random += UINT64_C(0x9e3779b97f4a7c15)); /* splitmix64 (Steele, Lea, Flood) */
    z = (z ^ (z >> 30)) * UINT64_C(0xbf58476d1ce4e5b9);
    z = (z ^ (z >> 27)) * UINT64_C(0x94d049bb133111eb);
    return (z ^ (z >> 31)) % n;
}

static int by_chance(caller *c, uint64_t one_in) { return pick(&c->random, one_in) == 0; }

/* Arguments: mostly good ones. */

static size_t some_place(caller *c) {
    size_t held = c->model.held;
    if (!by_chance(c, 12) && held > HEAP_FIRST)
        return by_chance(c, 8) ? 0 : HEAP_FIRST + (size_t)pick(&c->random, held - HEAP_FIRST);
    size_t bad[] = { 0, held, held + 1, ROOM, SIZE_MAX, SIZE_MAX - 1, ((size_t)1 << 32),
                     ((size_t)1 << 32) + HEAP_FIRST, ((size_t)1 << 63) + HEAP_FIRST };
    return bad[pick(&c->random, sizeof bad / sizeof bad[0])];
}

static size_t some_field(caller *c) {
    if (!by_chance(c, 20)) return (size_t)pick(&c->random, HEAP_FIELDS);
    size_t bad[] = { 5, 6, 255, 256, SIZE_MAX, (size_t)1 << 32, ((size_t)1 << 63) + 1 };
    return bad[pick(&c->random, sizeof bad / sizeof bad[0])];
}

static heap_val some_value(caller *c) {
    heap_val v = { HEAP_NULL, pick(&c->random, 3) };
    uint64_t kind = pick(&c->random, 40), end = UINT64_C(1) << 62;
    uint64_t great[] = { end - 1, end, end + 1, UINT64_C(1) << 63, UINT64_MAX };
    if (kind < 24) { v.tag = HEAP_REF; v.n = some_place(c); }
    else if (kind < 34) { v.tag = HEAP_NUM; v.n = pick(&c->random, end); }
    else if (kind == 34) { v.tag = HEAP_NUM; v.n = great[pick(&c->random, 5)]; }
    else if (kind == 35) { v.tag = 3 + pick(&c->random, 3); v.n = some_place(c); }
    else if (kind == 36) { v.tag = (UINT64_C(1) << (8 + pick(&c->random, 55))) + HEAP_REF; }
    return v;
}

/* The value that a field of a place has, as far as that can be said by places. */
static heap_val likely_value(caller *c, const call *of) {
    const model *m = &c->model;
    if (of->place >= m->held || of->field >= HEAP_FIELDS) return some_value(c);
    model_val known = m->place[of->place]->field[of->field];
    heap_val v = { known.tag, known.n };
    if (known.tag != HEAP_REF) return v;
    for (v.n = HEAP_FIRST; v.n < m->held; v.n++)
        if (m->place[v.n] == known.cell) return v;
    return some_value(c);
}

static call_kind some_kind(caller *c) {
    static const unsigned char weight[CALLS] = {
        [CALL_LEAVE] = 1, [CALL_BEGIN] = 1, [CALL_ANSWER] = 20, [CALL_KEEP] = 12, [CALL_MAKE] = 30,
        [CALL_MAKE_AT] = 8, [CALL_READ] = 50, [CALL_READ_ALL] = 6, [CALL_WRITE] = 40,
        [CALL_SWAP] = 20, [CALL_SAME] = 20, [CALL_PLACE] = 4 };
    if (!c->model.in && !by_chance(c, 4)) return CALL_BEGIN;
    if (by_chance(c, 600)) return CALL_END;
    uint64_t at = pick(&c->random, 212), kind = 0;
    while (at >= weight[kind]) at -= weight[kind++];
    return (call_kind)kind;
}

static call some_call(caller *c) {
    call it = { .kind = some_kind(c), .place = some_place(c), .field = some_field(c) };
    size_t held = c->model.held;
    it.other = some_place(c);
    for (int i = 0; i < MODEL_VALUES; i++) it.value[i] = some_value(c);
    switch (it.kind) {
    case CALL_KEEP:
        it.n = by_chance(c, 3) ? some_place(c) : HEAP_FIRST + (size_t)pick(&c->random, 12);
        it.count = (size_t)pick(&c->random, 6);
        if (by_chance(c, 30)) it.count = SIZE_MAX - (size_t)pick(&c->random, 2 * ROOM);
        if (by_chance(c, 30)) it.count = held - it.place;
        break;
    case CALL_MAKE_AT:
    case CALL_MAKE:
        it.n = by_chance(c, 20) ? 6 + (size_t)pick(&c->random, 3) : (size_t)pick(&c->random, 6);
        break;
    case CALL_READ_ALL:
        it.n = by_chance(c, 12) ? (size_t)pick(&c->random, MODEL_VALUES + 1) : HEAP_FIELDS;
        break;
    case CALL_SWAP:
        if (!by_chance(c, 4)) it.value[0] = likely_value(c, &it);
        break;
    default: break;
    }
    return it;
}

static heap_code made_call(heap_mut *m, call *c) {
    switch (c->kind) {
    case CALL_LEAVE: return heap_leave(m);
    case CALL_BEGIN: return heap_begin(m);
    case CALL_END: return heap_end(m);
    case CALL_ANSWER: return heap_answer(m);
    case CALL_KEEP: return heap_keep(m, c->n, c->place, c->count);
    case CALL_MAKE: return heap_make(m, c->value, c->n, &c->at);
    case CALL_MAKE_AT: return heap_make_at(m, c->place, c->value, c->n, &c->at);
    case CALL_READ: return heap_read(m, c->place, c->field, &c->out[0]);
    case CALL_READ_ALL: return heap_read_all(m, c->place, c->out, c->n);
    case CALL_WRITE: return heap_write(m, c->place, c->field, c->value[0]);
    case CALL_SWAP: return heap_swap(m, c->place, c->field, c->value[0], c->value[1]);
    case CALL_SAME: return heap_same(m, c->place, c->other, &c->same);
    case CALL_PLACE: return heap_place(m, c->place, &c->at);
    default: return HEAP_OK;
    }
}

static void fault(const caller *c, const call *it, const char *why) {
    fprintf(stderr, "thread %zu, call %llu, kind %d: %s\n", c->number,
            (unsigned long long)c->calls, (int)it->kind, why);
    fprintf(stderr, "place %zu field %zu n %zu count %zu other %zu, held %zu, may answer %x\n",
            it->place, it->field, it->n, it->count, it->other, c->model.held,
            model_codes(&c->model, it));
    fprintf(stderr, "code %d at %zu same %d out %llu %llu\n", (int)it->code, it->at, it->same,
            (unsigned long long)it->out[0].tag, (unsigned long long)it->out[0].n);
    exit(1);
}

/* One call, its answer, and what the handle says of its list after it. */
static void calls(caller *c, heap_mut *handle, model *m, call it) {
    const call before = it;
    it.at = SIZE_MAX;
    it.same = -1;
    it.code = saw(made_call(handle, &it));
    c->calls += 3;
    const char *why = model_takes(m, &it);
    if (why) fault(c, &it, why);
    if (heap_held(handle) != m->held) fault(c, &it, "heap_held");
    if (heap_room(handle) != (m->in ? m->room - m->held : 0)) fault(c, &it, "heap_room");
    if (it.code != HEAP_OK && (it.at != SIZE_MAX || it.same != -1 || it.out[0].tag
            || it.out[0].n != before.out[0].n)) fault(c, &it, "a refused call gave something");
    if ((it.code == HEAP_WAIT || it.code == HEAP_FULL) && by_chance(c, 4)) heap_sleep();
}

/* Drops all that it holds and what its field of the anchor leads to. */
static void lets_go(caller *c) {
    call keep = { .kind = CALL_KEEP, .n = HEAP_FIRST };
    call write = { .kind = CALL_WRITE, .field = c->model.anchor_field };
    calls(c, &c->spot->m, &c->model, keep);
    if (c->model.anchor_field < HEAP_FIELDS) calls(c, &c->spot->m, &c->model, write);
}

static void parks(caller *c) {
    heap_park(c->spot);
    for (uint64_t i = pick(&c->random, 3); i > 0; i--) thrd_yield();
    heap_unpark(c->spot);
}

void caller_begins(caller *c, heap_spot *spot, size_t number, uint64_t seed, uint64_t least) {
    *c = (caller){ .spot = spot, .number = number, .least = least };
    c->random = seed * 1000 + number;
    model_opens(&c->model, ROOM, number < HEAP_FIELDS ? number : HEAP_FIELDS);
}

void *caller_runs(void *given) {
    static const call end = { .kind = CALL_END }, leave = { .kind = CALL_LEAVE };
    caller *c = given;
    heap_mut *m = &c->spot->m, none = HEAP_ZERO;
    while (c->calls < c->least) {
        call it = some_call(c);
        if (model_forbids(&c->model, &it) || (it.kind == CALL_LEAVE && !c->model.in)) continue;
        calls(c, m, &c->model, it);
        if (c->model.in && model_is_crowded(&c->model)) lets_go(c);
        if (by_chance(c, 1000)) parks(c);
        if (by_chance(c, 1000)) {
            static _Thread_local model nobody;
            calls(c, &none, &nobody, some_call(c));
        }
    }
    if (c->model.in) calls(c, m, &c->model, end);
    calls(c, m, &c->model, leave);
    for (int i = 0; i < 100; i++) calls(c, m, &c->model, some_call(c));
    return NULL;
}
