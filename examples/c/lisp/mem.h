/* mem.h: the values of the language. All of them lie in the heap of ../heap.h, and mem.c alone
 * calls that: how values lie in records and boxes is its affair (a table is in README.md).
 *
 * A value is nil, a number, or a cell, which is a slot of the thread's stack of roots. What a slot
 * leads to is not freed, and a slot goes with its record when that moves. Each call that hands out
 * a cell takes the next slot. A function notes mem_frame at its entry; mem_leave lets the slots of
 * its frame go, mem_give those but the one of its result. What lies below the frame is not touched.
 *
 * With -DMEM_CHECK each value has the stamp of its slot, which is another one each time the slot is
 * taken: the use of a value whose slot was let go ends the program. */
#ifndef MEM_H
#define MEM_H
#include <stddef.h>
#include <stdint.h>
#include <stdio.h>

enum { MEM_SEATS = 64, MEM_SLOTS = 131072, MEM_TEXT = 252 };

typedef struct mem mem; /* what a thread works with: its seat at the heap */

typedef struct {
    uint64_t tag, n;
#ifdef MEM_CHECK
    uint64_t stamp;
#endif
} value;
enum { NIL = 0, NUMBER = 1, CELL = 2 };

static inline value nil(void) { return (value){ .tag = NIL }; }
static inline int is_nil(value v) { return v.tag == NIL; }
static inline int is_number(value v) { return v.tag == NUMBER; }
static inline int is_cell(value v) { return v.tag == CELL; }

/* Numbers are whole ones from MEM_LEAST to MEM_MOST, in 62 bits. */
#define MEM_MOST ((INT64_C(1) << 61) - 1)
#define MEM_LEAST (-(INT64_C(1) << 61))
static inline value number(int64_t n) {
    return (value){ .tag = NUMBER, .n = (uint64_t)n & ((UINT64_C(1) << 62) - 1) };
}
static inline int64_t number_of(value v) {
    return (int64_t)v.n > MEM_MOST ? (int64_t)v.n + 2 * MEM_LEAST : (int64_t)v.n;
}

/* A record begins with a word: its kind, and 58 bits that are the kind's own. */
enum { PAIR, SYMBOL, TEXT, CLOSURE, BUILTIN, ATOM, BINDING, TASK, KINDS = 16 };
static inline unsigned kind_of(uint64_t word) { return (unsigned)(word % KINDS); }
static inline uint64_t info_of(uint64_t word) { return word / KINDS; }

/* The heap, and the collector's thread: cells in all, and whether one cycle follows another even if
 * nobody wants cells. A file that is given gets the number of cells, and for each cycle a line: how
 * many it found in use, and how many were freed until its end. 0 if there is no memory. mem_close:
 * all seats are out. */
int mem_open(uint32_t cells, int always, FILE *cycle_lines);
void mem_close(void);
uint64_t mem_cycles(void); /* that ended */
int64_t mem_used(void);    /* how many cells the last one found in use */

/* A seat comes in, with no values of its own: 0 if there is no memory. mem_exit: it goes out. */
mem *mem_seat(size_t number);
int mem_enter(mem *m);
void mem_exit(mem *m);
/* Hands over a task to a seat that is in, before its thread begins. */
value mem_hand(mem *from, value task, mem *to);

/* What a call does that cannot do its work: it calls this, which does not return. MEM_FULL: no cell
 * is free, and cycles did not help; MEM_DEEP: too few slots are left. */
typedef enum { MEM_FULL, MEM_DEEP } mem_fault;
void mem_on_fault(mem *m, void (*handler)(void *owner, mem_fault fault), void *owner);
void mem_recover(mem *m); /* after MEM_FULL, once its frame was left: lets its cells go */

void mem_answer(mem *m); /* to be called often */
void mem_park(mem *m);   /* before it blocks; no call until it is taken back */
void mem_unpark(mem *m);

/* Frames. mem_give_two hands on two values that were taken within the frame, or lie below it. */
size_t mem_frame(mem *m);
void mem_leave(mem *m, size_t frame);
value mem_give(mem *m, size_t frame, value v);
void mem_give_two(mem *m, size_t frame, value *one, value *other);

/* Records: they never change. The place in the text that a pair was read from is its info, or 0. */
value mem_pair(mem *m, uint64_t at, value first, value rest);
value mem_text(mem *m, const char *text, size_t length); /* at most MEM_TEXT bytes */
value mem_closure(mem *m, value parameters, value body, value bindings, value name);
value mem_builtin(mem *m, size_t number);
value mem_binding(mem *m, uint64_t symbol, value v, value next); /* the symbol's info */

uint64_t mem_word(mem *m, value cell);
void mem_parts(mem *m, value cell, value parts[4]); /* its four fields after the word */
void mem_open_pair(mem *m, value pair, value *first, value *rest);
size_t mem_chars(mem *m, value text, char out[MEM_TEXT]); /* how many there are */
int mem_same(mem *m, value one, value other);

/* The value of a symbol's first binding from this one on: 0 if there is none. */
int mem_find(mem *m, value bindings, uint64_t symbol, value *v);

/* Symbols: one for each name. They, atoms and tasks have the numbers 0, 1, 2 .. in order. A symbol
 * has a global value; mem_global answers 0 where it has none. */
enum { SYMBOL_BITS = 26 };
value mem_symbol(mem *m, const char *name, size_t length);
static inline uint64_t symbol_number(uint64_t info) { return info % (1u << SYMBOL_BITS); }
value mem_name(mem *m, value symbol);
int mem_global(mem *m, value symbol, value *v);
void mem_define(mem *m, value symbol, value v);

/* Atoms, the only values that change. mem_swap: one compare and exchange, 0 if the atom has another
 * value than `was`. */
value mem_atom(mem *m, value v);
value mem_get(mem *m, value atom);
void mem_set(mem *m, value atom, value v);
int mem_swap(mem *m, value atom, value was, value now);

/* Tasks. A new one has a function. It is settled once: with a state other than 0, a place in the
 * text and a value. mem_settled: its state, 0 as long as it is not settled. */
value mem_task(mem *m, value function);
value mem_work(mem *m, value task);
void mem_settle(mem *m, value task, uint64_t state, uint64_t at, value v);
uint64_t mem_settled(mem *m, value task, uint64_t *at, value *v);
#endif
