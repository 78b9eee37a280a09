#include "model.h"
#include <string.h>

static const uint64_t numbers_end = UINT64_C(1) << 62;

void model_opens(model *m, size_t room, size_t anchor_field) {
    memset(m, 0, sizeof *m);
    m->given = 1;
    m->room = room;
    m->anchor_field = anchor_field;
}

/* The cells. Those that nothing leads to are forgotten when there are too many. */

static void mark(model_cell *c) {
    if (c->marked) return;
    c->marked = 1;
    for (int i = 0; i < HEAP_FIELDS; i++)
        if (c->field[i].tag == HEAP_REF) mark(c->field[i].cell);
}

static void forget(model *m) {
    for (size_t i = 0; i < MODEL_CELLS; i++) m->cells[i].marked = 0;
    m->anchor.marked = 0;
    mark(&m->anchor);
    for (size_t i = 0; i < m->held; i++) mark(m->place[i]);
    m->used = 0;
    for (size_t i = 0; i < MODEL_CELLS; i++) {
        if (!m->cells[i].marked) m->cells[i].used = 0;
        m->used += (size_t)m->cells[i].used;
    }
}

int model_is_crowded(model *m) {
    if (m->used < MODEL_CROWDED) return 0;
    forget(m);
    return m->used >= MODEL_CROWDED;
}

static model_cell *new_cell(model *m, int stranger) {
    if (m->used == MODEL_CELLS) forget(m);
    if (m->used == MODEL_CELLS) return NULL;
    while (m->cells[m->next].used) m->next = (m->next + 1) % MODEL_CELLS;
    model_cell *c = &m->cells[m->next];
    memset(c, 0, sizeof *c);
    c->used = 1;
    c->stranger = stranger;
    m->used++;
    return c;
}

/* What each call has to answer. */

static int is_place(const model *m, size_t p) { return p < m->held; }

static unsigned value_codes(const model *m, const heap_val *v, size_t n) {
    for (size_t i = 0; i < n; i++) {
        if (v[i].tag == HEAP_NULL) continue;
        if (v[i].tag == HEAP_NUM && v[i].n < numbers_end) continue;
        if (v[i].tag == HEAP_REF && v[i].n >= HEAP_FIRST && v[i].n < m->held) continue;
        return CODE(HEAP_BAD_VALUE);
    }
    return 0;
}

static unsigned field_codes(const model *m, const call *c) {
    unsigned codes = is_place(m, c->place) ? 0 : CODE(HEAP_BAD_PLACE);
    if (c->field >= HEAP_FIELDS) codes |= CODE(HEAP_BAD_FIELD);
    return codes;
}

static unsigned room_codes(const model *m, size_t places) {
    return m->room - m->held < places ? CODE(HEAP_NO_ROOM) : 0;
}

static unsigned keep_codes(const model *m, const call *c) {
    if (c->n < HEAP_FIRST || c->n > m->held) return CODE(HEAP_BAD_PLACE);
    if (c->count == 0) return 0;
    if (c->place < HEAP_FIRST || c->place > m->held) return CODE(HEAP_BAD_PLACE);
    if (c->count > m->held - c->place) return CODE(HEAP_BAD_PLACE);
    return m->room - c->n < c->count ? CODE(HEAP_NO_ROOM) : 0;
}

static unsigned make_codes(const model *m, const call *c) {
    unsigned codes = c->n > HEAP_FIELDS ? CODE(HEAP_BAD_SIZE) : 0;
    return codes | value_codes(m, c->value, c->n) | room_codes(m, 1);
}

static model_val *field_of(const model *m, const call *c) {
    return &m->place[c->place]->field[c->field];
}

/* What an exchange has to answer that expects this value. Two strangers may be one cell, and one of
 * them may be a cell of this thread that another one names. */
static unsigned finds(const model *m, const model_val *known, const heap_val *v) {
    if (known->tag != v->tag) return CODE(HEAP_MOVED);
    if (v->tag != HEAP_REF)
        return v->tag == HEAP_NULL || known->n == v->n ? 0 : CODE(HEAP_MOVED);
    const model_cell *cell = m->place[v->n];
    if (known->cell == cell) return 0;
    if (known->cell->stranger || cell->stranger) return CODE(HEAP_MOVED) | CODE(HEAP_OK);
    return CODE(HEAP_MOVED);
}

static unsigned swap_codes(const model *m, const call *c) {
    unsigned codes = field_codes(m, c) | value_codes(m, c->value, 2);
    if (codes || model_forbids(m, c)) return codes;
    return finds(m, field_of(m, c), &c->value[0]);
}

static unsigned wrong(const model *m, const call *c) {
    switch (c->kind) {
    case CALL_KEEP: return keep_codes(m, c);
    case CALL_MAKE: return make_codes(m, c);
    case CALL_MAKE_AT:
        return make_codes(m, c)
            | (c->place < HEAP_FIRST || c->place > m->held ? CODE(HEAP_BAD_PLACE) : 0);
    case CALL_READ: return field_codes(m, c) | room_codes(m, 1);
    case CALL_READ_ALL:
        return (c->place == 0 || !is_place(m, c->place) ? CODE(HEAP_BAD_PLACE) : 0)
            | (c->n != HEAP_FIELDS ? CODE(HEAP_BAD_SIZE) : 0) | room_codes(m, HEAP_FIELDS);
    case CALL_WRITE: return field_codes(m, c) | value_codes(m, c->value, 1) | room_codes(m, 1);
    case CALL_SWAP: return swap_codes(m, c);
    case CALL_SAME:
        return is_place(m, c->place) && is_place(m, c->other) ? 0 : CODE(HEAP_BAD_PLACE);
    case CALL_PLACE: return is_place(m, c->place) ? 0 : CODE(HEAP_BAD_PLACE);
    default: return 0;
    }
}

/* Of who is out. A number that no place can have here may be told first: heap_make_at's place is a
 * count. */
static unsigned out_codes(const call *c) {
    int names = c->kind == CALL_KEEP || c->kind == CALL_READ || c->kind == CALL_READ_ALL ||
                c->kind == CALL_WRITE || c->kind == CALL_SWAP || c->kind == CALL_SAME;
    int is_none = c->place > UINT32_MAX || (c->kind == CALL_SAME && c->other > UINT32_MAX);
    return CODE(HEAP_NOT_IN) | (names && is_none ? CODE(HEAP_BAD_PLACE) : 0);
}

unsigned model_codes(const model *m, const call *c) {
    unsigned codes;
    if (!m->given) return CODE(HEAP_NO_HANDLE);
    if (c->kind == CALL_BEGIN || c->kind == CALL_LEAVE) codes = m->in ? CODE(HEAP_IS_IN) : 0;
    else codes = m->in ? wrong(m, c) : out_codes(c);
    if (codes) return codes;
    if (c->kind == CALL_MAKE || c->kind == CALL_MAKE_AT)
        return CODE(HEAP_OK) | CODE(HEAP_WAIT) | CODE(HEAP_FULL);
    return CODE(HEAP_OK);
}

int model_forbids(const model *m, const call *c) {
    if (!m->in || (c->kind != CALL_WRITE && c->kind != CALL_SWAP)) return 0;
    if (field_codes(m, c)) return 0;
    return c->place == 0 ? c->field != m->anchor_field : m->place[c->place]->stranger;
}

/* What a call that answered OK has done. */

static model_val known(const model *m, const heap_val *v) {
    model_val k = { v->tag, v->n, NULL };
    if (v->tag == HEAP_REF) k.cell = m->place[v->n];
    return k;
}

static const char *made(model *m, const call *c, size_t at) {
    model_cell *cell = new_cell(m, 0);
    if (!cell) return "the model is full";
    if (c->at != at) return "a new cell is at another place";
    for (size_t i = 0; i < c->n; i++) cell->field[i] = known(m, &c->value[i]);
    m->place[at] = cell;
    m->held = at + 1;
    return NULL;
}

/* A value that was read out of this field: of a stranger, or as it is known. */
static const char *found(model *m, const model_val *field, const heap_val *v) {
    if (v->tag > HEAP_REF) return "a read gave no value";
    if (v->tag == HEAP_NUM && v->n >= numbers_end) return "a read gave too great a number";
    if (v->tag == HEAP_REF && v->n != m->held) return "a read held a cell at another place";
    if (field && field->tag != v->tag) return "a read gave a value of another kind";
    if (field && v->tag == HEAP_NUM && field->n != v->n) return "a read gave another number";
    if (v->tag != HEAP_REF) return NULL;
    model_cell *cell = field ? field->cell : new_cell(m, 1);
    if (!cell) return "the model is full";
    m->place[m->held++] = cell;
    return NULL;
}

static int is_mine(const model *m, size_t place, size_t field) {
    return place == 0 ? field == m->anchor_field : !m->place[place]->stranger;
}

static const char *read_fields(model *m, const call *c, size_t from, size_t count) {
    model_cell *cell = m->place[c->place];
    const char *fault = NULL;
    for (size_t i = 0; i < count && !fault; i++) {
        model_val field = cell->field[from + i];
        fault = found(m, is_mine(m, c->place, from + i) ? &field : NULL, &c->out[i]);
    }
    return fault;
}

static const char *compared(const model *m, const call *c) {
    const model_cell *one = m->place[c->place], *other = m->place[c->other];
    if (c->same != 0 && c->same != 1) return "heap_same gave neither 0 nor 1";
    if (one == other) return c->same ? NULL : "one cell is said to be two";
    if (one->stranger && other->stranger) return NULL; /* whether they are one is not known */
    if ((one->stranger || other->stranger) && c->place != 0 && c->other != 0) return NULL;
    return c->same ? "two cells are said to be one" : NULL;
}

const char *model_takes(model *m, const call *c) {
    if (!(model_codes(m, c) & CODE(c->code))) return "another code";
    if (c->code != HEAP_OK) return NULL;
    switch (c->kind) {
    case CALL_LEAVE: m->given = 0; return NULL;
    case CALL_BEGIN:
        m->in = 1;
        m->held = HEAP_FIRST;
        m->place[0] = &m->anchor;
        return NULL;
    case CALL_END: m->in = 0; m->held = 0; return NULL;
    case CALL_KEEP:
        if (c->count > 0)
            memmove(&m->place[c->n], &m->place[c->place], c->count * sizeof m->place[0]);
        m->held = c->n + c->count;
        return NULL;
    case CALL_MAKE: return made(m, c, m->held);
    case CALL_MAKE_AT: return made(m, c, c->place);
    case CALL_READ: return read_fields(m, c, c->field, 1);
    case CALL_READ_ALL: return read_fields(m, c, 0, HEAP_FIELDS);
    case CALL_WRITE: *field_of(m, c) = known(m, &c->value[0]); return NULL;
    case CALL_SWAP: *field_of(m, c) = known(m, &c->value[1]); return NULL;
    case CALL_SAME: return compared(m, c);
    case CALL_PLACE: return c->at == c->place ? NULL : "a place has another number";
    default: return NULL;
    }
}
