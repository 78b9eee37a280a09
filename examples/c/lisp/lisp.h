/* lisp.h: an interpreter for each thread, and what its parts are to one another. */
#ifndef LISP_H
#define LISP_H
#include "mem.h"
#include <pthread.h>
#include <setjmp.h>
#include <stdio.h>

enum { MOST_ARGUMENTS = 16, MOST_DEPTH = 10000, STACK_BYTES = 64 << 20, OUT = 4096 };

/* Why a form has no value. names_of_faults has the names, in this order. Those up to RAISED are
 * about a value. */
typedef enum {
    NO_FAULT, UNBOUND, NOT_A_NUMBER, NOT_A_PAIR, NOT_A_FUNCTION, NOT_AN_ATOM, NOT_A_TASK,
    WRONG_ARGUMENTS, BAD_FORM, RAISED, OVERFLOW, DIVIDED_BY_ZERO, TOO_DEEP, OUT_OF_MEMORY,
    NO_THREAD, UNCLOSED, UNOPENED, BAD_NUMBER, TOO_LONG, FAULTS
} fault;
extern const char *const names_of_faults[FAULTS];

typedef struct {
    mem *m;
    jmp_buf top;     /* where a fault goes */
    fault why;
    value subject;   /* what the fault is about */
    value truth;     /* the symbol t */
    uint64_t at;     /* of the form in work: at_of its row and column */
    unsigned depth;  /* of evaluations within one another */
    char out[OUT];   /* what is to be written */
    size_t out_length;
    pthread_t thread;
    value task;      /* what the thread works for */
} interpreter;

typedef struct {
    const value *at;
    size_t n;
} arguments;

static inline uint64_t at_of(uint64_t row, uint64_t column) {
    return row * 4096 + (column < 4095 ? column : 4095);
}

/* Leaves the form in work, as longjmp does. */
_Noreturn void fail(interpreter *t, fault why, value subject);

/* A cell's word, or one of no kind for what is no cell. */
static inline uint64_t word_of(interpreter *t, value v) {
    return is_cell(v) ? mem_word(t->m, v) : KINDS - 1;
}
static inline int is_kind(interpreter *t, value v, unsigned kind) {
    return kind_of(word_of(t, v)) == kind;
}

/* evaluator.c. The symbols of the special forms have the first numbers. */
enum { SPECIALS = 9 };
void evaluator_opens(interpreter *t);
value evaluate(interpreter *t, value form, value bindings);
value apply(interpreter *t, value function, arguments a);
void deeper(interpreter *t);

/* builtins.c */
void builtins_open(interpreter *t);
value call_builtin(interpreter *t, uint64_t number, arguments a);
extern const char *const prelude[]; /* functions of the language, up to a null pointer */

/* threads.c: an interpreter for each seat. The first one is that of the program. */
interpreter *first_interpreter(void);
value spawn(interpreter *t, value function);
value await(interpreter *t, value task);
void give_way(interpreter *t);
void await_all(interpreter *t); /* all of them, at the end */
int start_thread(interpreter *t, void *(*run)(void *given), void *given); /* 0: there is none */

/* reader.c */
typedef struct {
    FILE *file;        /* or null, and then */
    const char *text;  /* a text without places, ended by a zero byte */
    const char *prompt;
    char line[256];
    size_t next;
    uint64_t row, column;
    unsigned open;     /* parentheses that wait for their end */
} reader;
int read_form(interpreter *t, reader *r, value *form); /* 0 at the end */
void skip_form(interpreter *t, reader *r);             /* what is left of one after a fault */

/* printer.c */
void print(interpreter *t, value v, int quoted); /* texts as they are read, or bare */
void print_text(interpreter *t, const char *text);
void flush(interpreter *t);
#endif
