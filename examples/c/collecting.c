#include "hostile.h"

/* This call's answer has to be one of these codes. */
#define ANSWERS(call, codes) answers((call), (codes), #call)
static heap_code answers(heap_code code, unsigned codes, const char *call) {
    (void)saw(code);
    if (codes & CODE(code)) return code;
    fprintf(stderr, "%s answered %d\n", call, (int)code);
    exit(1);
}

static heap_stats last;

/* What is told only grows, and the stage is one of the six. */
static void looks(heap_col *c) {
    heap_stats s;
    ANSWERS(heap_look(c, &s), CODE(HEAP_OK));
    HOLDS(s.cycles >= last.cycles && s.freed >= last.freed && s.stage <= 5 && s.asks <= 1);
    last = s;
}

static void opens_badly(heap_col *c, uint64_t *random) {
    heap_col none = HEAP_ZERO;
    uint32_t sizes[] = { 100, 2, 10, 5 };
    static const uint32_t bad[4][3] = { { 0, 4194305, UINT32_MAX }, { 0, 1048577, UINT32_MAX },
                                        { 0, 1048577, UINT32_MAX }, { 0, 6, UINT32_MAX } };
    ANSWERS(heap_open(100, 2, 10, 5, c), CODE(HEAP_NOT_ZERO));
    size_t which = (size_t)pick(random, 4);
    sizes[which] = bad[which][pick(random, 3)];
    ANSWERS(heap_open(sizes[0], sizes[1], sizes[2], sizes[3], &none), CODE(HEAP_BAD_SIZE));
    HOLDS(none.p == NULL);
}

static void asks_nobody(heap_mut *mine) {
    heap_col none = HEAP_ZERO;
    heap_mut out = HEAP_ZERO;
    heap_stats s;
    int how = 17;
    ANSWERS(heap_step(&none, 1, &how), CODE(HEAP_NO_HANDLE));
    HOLDS(how == 17);
    ANSWERS(heap_duty(&none, 1), CODE(HEAP_NO_HANDLE));
    ANSWERS(heap_look(&none, &s), CODE(HEAP_NO_HANDLE));
    ANSWERS(heap_close(&none), CODE(HEAP_NO_HANDLE));
    ANSWERS(heap_seat(&none, 64, &out), CODE(HEAP_NO_HANDLE));
    ANSWERS(heap_seat(&none, 64, mine), CODE(HEAP_NO_HANDLE) | CODE(HEAP_NOT_ZERO));
    HOLDS(out.p == NULL);
}

/* All mutators are seated. */
static void seats_badly(heap_col *c, heap_mut *mine, uint64_t *random) {
    heap_mut out = HEAP_ZERO;
    uint32_t room = (uint32_t)pick(random, HEAP_LEAST_ROOM);
    ANSWERS(heap_seat(c, 64, &out), CODE(HEAP_NO_SEAT));
    ANSWERS(heap_seat(c, room, &out), CODE(HEAP_NO_SEAT) | CODE(HEAP_BAD_SIZE));
    ANSWERS(heap_seat(c, 64, mine), CODE(HEAP_NO_SEAT) | CODE(HEAP_NOT_ZERO));
    HOLDS(out.p == NULL && mine->p != NULL);
}

void *hostile_collector(void *given) {
    collector *c = given;
    heap_mut *mine = &c->spots[c->count - 1].m; /* a seat that nobody else uses */
    uint64_t random = 1;
    int how = HEAP_MORE;
    while (!atomic_load(&c->over)) {
        uint32_t moves = (uint32_t)pick(&random, 3000);
        ANSWERS(heap_step(&c->col, moves, &how), CODE(HEAP_OK));
        HOLDS(how == HEAP_MORE || how == HEAP_ENDED || how == HEAP_ASKS);
        if (how == HEAP_ASKS) heap_serve(c->spots, c->count);
        if (how == HEAP_ASKS) thrd_yield();
        switch (pick(&random, 32)) {
        case 0: looks(&c->col); break;
        case 1: opens_badly(&c->col, &random); break;
        case 2: asks_nobody(mine); break;
        case 3: seats_badly(&c->col, mine, &random); break;
        case 4: ANSWERS(heap_duty(&c->col, 1), CODE(HEAP_OK)); break;
        default: break;
        }
    }
    looks(&c->col);
    return NULL;
}
