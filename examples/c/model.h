/* A plain model of one mutator: what it holds, what the cells have that it alone writes, and what
 * each call has to answer. Of what is in other threads' cells, the strangers, it says nothing. */
#ifndef MODEL_H
#define MODEL_H
#include "heap.h"

enum { MODEL_ROOM = 32, MODEL_CELLS = 1500, MODEL_CROWDED = 1000, MODEL_VALUES = 8 };

typedef struct model_cell model_cell;

typedef struct {
    uint64_t tag, n;  /* as of heap_val, but for HEAP_REF */
    model_cell *cell; /* of HEAP_REF */
} model_val;

struct model_cell {
    model_val field[HEAP_FIELDS];
    int used, marked, stranger;
};

typedef struct {
    int given, in;
    size_t held, room, anchor_field; /* the field of the anchor that it alone writes */
    model_cell *place[MODEL_ROOM];
    model_cell anchor;               /* what the first place holds */
    model_cell cells[MODEL_CELLS];
    size_t used, next;
} model;

typedef enum {
    CALL_LEAVE, CALL_BEGIN, CALL_END, CALL_ANSWER, CALL_KEEP, CALL_MAKE, CALL_MAKE_AT, CALL_READ,
    CALL_READ_ALL, CALL_WRITE, CALL_SWAP, CALL_SAME, CALL_PLACE, CALLS
} call_kind;

/* A call with its arguments, and what it gave back. */
typedef struct {
    call_kind kind;
    size_t place, field, n, count, other;
    heap_val value[MODEL_VALUES]; /* those of a new cell; the one to be written; was, and now */
    heap_code code;
    size_t at;                    /* the place that it gave */
    int same;
    heap_val out[MODEL_VALUES];
} call;

/* A bit for each code. */
#define CODE(code) (1u << (unsigned)(code))

/* A mutator that has a handle, and is out. Field `anchor_field` of the anchor is null. */
void model_opens(model *m, size_t room, size_t anchor_field);
/* The codes of which one has to be answered. */
unsigned model_codes(const model *m, const call *c);
/* Whether the call would write where others know what stands, or read what they write. */
int model_forbids(const model *m, const call *c);
/* Takes in what the call gave back. Answers null, or what is wrong with it. */
const char *model_takes(model *m, const call *c);
/* Whether so many cells are known that some ought to be dropped. */
int model_is_crowded(model *m);
#endif
