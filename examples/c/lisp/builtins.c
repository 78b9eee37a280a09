/* The functions that are there from the start, in C and in the language. */
#include "lisp.h"
#include <string.h>

const char *const names_of_faults[FAULTS] = {
    "no-fault", "unbound", "not-a-number", "not-a-pair", "not-a-function", "not-an-atom",
    "not-a-task", "wrong-arguments", "bad-form", "raised", "overflow", "divided-by-zero",
    "too-deep", "out-of-memory", "no-thread", "unclosed", "unopened", "bad-number", "too-long",
};

const char *const prelude[] = {
    "(define (list . xs) xs)",
    "(define (not x) (null? x))",
    "(define (fold f a xs) (if xs (fold f (f a (car xs)) (cdr xs)) a))",
    "(define (reverse xs) (fold (lambda (a x) (cons x a)) nil xs))",
    "(define (append xs ys) (fold (lambda (a x) (cons x a)) ys (reverse xs)))",
    "(define (map f xs) (reverse (fold (lambda (a x) (cons (f x) a)) nil xs)))",
    "(define (filter f xs)"
    "  (reverse (fold (lambda (a x) (if (f x) (cons x a) a)) nil xs)))",
    "(define (each f xs) (if xs (begin (f (car xs)) (each f (cdr xs)))))",
    "(define (length xs) (fold (lambda (a x) (+ a 1)) 0 xs))",
    "(define (range from to)"
    "  (let loop ((i to) (xs nil)) (if (< from i) (loop (- i 1) (cons (- i 1) xs)) xs)))",
    NULL
};

static value truth(interpreter *t, int holds) { return holds ? t->truth : nil(); }

/* A function that tells whether something holds of its arguments. */
#define TELLS(name, holds) \
    static value name(interpreter *t, arguments a) { return truth(t, (holds)); }

/* Numbers. */

static int64_t whole(interpreter *t, value v) {
    if (!is_number(v)) fail(t, NOT_A_NUMBER, v);
    return number_of(v);
}

static value in_range(interpreter *t, int64_t n) {
    if (n < MEM_LEAST || n > MEM_MOST) fail(t, OVERFLOW, nil());
    return number(n);
}

static value add(interpreter *t, arguments a) {
    value sum = number(0);
    for (size_t i = 0; i < a.n; i++) sum = in_range(t, number_of(sum) + whole(t, a.at[i]));
    return sum;
}

static value subtract(interpreter *t, arguments a) {
    value rest = a.n == 1 ? number(0) : a.at[0];
    for (size_t i = a.n > 1; i < a.n; i++) rest = in_range(t, whole(t, rest) - whole(t, a.at[i]));
    return rest;
}

static int64_t size_of(int64_t n) { return n < 0 ? -n : n; }

static value multiply(interpreter *t, arguments a) {
    int64_t product = 1;
    for (size_t i = 0; i < a.n; i++) {
        int64_t by = whole(t, a.at[i]);
        if (by != 0 && size_of(product) > -MEM_LEAST / size_of(by)) fail(t, OVERFLOW, nil());
        product = number_of(in_range(t, product * by));
    }
    return number(product);
}

static int64_t divisor(interpreter *t, arguments a) {
    if (whole(t, a.at[1]) == 0) fail(t, DIVIDED_BY_ZERO, nil());
    return number_of(a.at[1]);
}

static value quotient(interpreter *t, arguments a) {
    return in_range(t, whole(t, a.at[0]) / divisor(t, a));
}

static value rest_of(interpreter *t, arguments a) {
    return number(whole(t, a.at[0]) % divisor(t, a));
}

TELLS(below, whole(t, a.at[0]) < whole(t, a.at[1]))
TELLS(above, whole(t, a.at[0]) > whole(t, a.at[1]))
TELLS(alike, whole(t, a.at[0]) == whole(t, a.at[1]))

/* Pairs, and what values are. */

static value part(interpreter *t, value pair, int is_first) {
    value first, rest;
    if (!is_kind(t, pair, PAIR)) fail(t, NOT_A_PAIR, pair);
    mem_open_pair(t->m, pair, &first, &rest);
    return is_first ? first : rest;
}

/* Whether pairs and texts have the same parts. */
static int has_same_parts(interpreter *t, value one, value other) {
    size_t frame = mem_frame(t->m);
    value ones[4], others[4];
    int same;
    deeper(t);
    while (!(same = mem_same(t->m, one, other))) {
        uint64_t word = word_of(t, one), its = word_of(t, other);
        if (kind_of(word) != kind_of(its)) break;
        if (kind_of(word) != PAIR && (kind_of(word) != TEXT || word != its)) break;
        mem_parts(t->m, one, ones);
        mem_parts(t->m, other, others);
        size_t last = kind_of(word) == PAIR ? 1 : 3, i = 0;
        while (i < last && has_same_parts(t, ones[i], others[i])) i++;
        if (i < last) break;
        one = ones[last];
        other = others[last];
        mem_give_two(t->m, frame, &one, &other);
        mem_answer(t->m);
    }
    t->depth--;
    mem_leave(t->m, frame);
    return same;
}

static value cons(interpreter *t, arguments a) { return mem_pair(t->m, 0, a.at[0], a.at[1]); }
static value car(interpreter *t, arguments a) { return part(t, a.at[0], 1); }
static value cdr(interpreter *t, arguments a) { return part(t, a.at[0], 0); }
TELLS(is_null, is_nil(a.at[0]))
TELLS(is_pair, is_kind(t, a.at[0], PAIR))
TELLS(is_symbol, is_kind(t, a.at[0], SYMBOL))
TELLS(is_whole, is_number(a.at[0]))
TELLS(is_text, is_kind(t, a.at[0], TEXT))
TELLS(is_same, mem_same(t->m, a.at[0], a.at[1]))
TELLS(is_equal, has_same_parts(t, a.at[0], a.at[1]))

/* Atoms. */

static value atom_of(interpreter *t, value v) {
    if (!is_kind(t, v, ATOM)) fail(t, NOT_AN_ATOM, v);
    return v;
}

static value atom(interpreter *t, arguments a) { return mem_atom(t->m, a.at[0]); }
static value deref(interpreter *t, arguments a) { return mem_get(t->m, atom_of(t, a.at[0])); }
TELLS(exchange, mem_swap(t->m, atom_of(t, a.at[0]), a.at[1], a.at[2]))

static value reset(interpreter *t, arguments a) {
    mem_set(t->m, atom_of(t, a.at[0]), a.at[1]);
    return a.at[1];
}

/* (swap! ATOM FUNCTION VALUE ..): the atom's value becomes the function's of it and these. */
static value swap(interpreter *t, arguments a) {
    size_t frame = mem_frame(t->m);
    value it = atom_of(t, a.at[0]), given[MOST_ARGUMENTS];
    memcpy(given, a.at + 1, (a.n - 1) * sizeof given[0]);
    for (;;) {
        given[0] = mem_get(t->m, it);
        value now = apply(t, a.at[1], (arguments){ given, a.n - 1 });
        if (mem_swap(t->m, it, given[0], now)) return mem_give(t->m, frame, now);
        mem_leave(t->m, frame);
    }
}

/* Threads, and the rest. */

static value start(interpreter *t, arguments a) { return spawn(t, a.at[0]); }
static value wait(interpreter *t, arguments a) { return await(t, a.at[0]); }

static value yield(interpreter *t, arguments a) {
    (void)a;
    give_way(t);
    return nil();
}

static value write(interpreter *t, arguments a) {
    for (size_t i = 0; i < a.n; i++) {
        if (i > 0) print_text(t, " ");
        print(t, a.at[i], 0);
    }
    print_text(t, "\n");
    flush(t);
    return nil();
}

static value raise(interpreter *t, arguments a) { fail(t, RAISED, a.at[0]); }

/* (apply FUNCTION LIST) */
static value call_with(interpreter *t, arguments a) {
    value list = a.at[1], given[MOST_ARGUMENTS];
    size_t n = 0;
    for (; !is_nil(list); n++) {
        if (n == MOST_ARGUMENTS) fail(t, WRONG_ARGUMENTS, number(MOST_ARGUMENTS + 1));
        given[n] = part(t, list, 1);
        list = part(t, list, 0);
    }
    return apply(t, a.at[0], (arguments){ given, n });
}

static value count(interpreter *t, arguments a) {
    (void)t;
    (void)a;
    return number((int64_t)mem_cycles());
}

static value used(interpreter *t, arguments a) {
    (void)t;
    (void)a;
    return number(mem_used());
}

static const struct {
    const char *name;
    value (*function)(interpreter *t, arguments a);
    size_t least, most;
} builtins[] = {
    { "+", add, 0, MOST_ARGUMENTS }, { "-", subtract, 1, MOST_ARGUMENTS },
    { "*", multiply, 0, MOST_ARGUMENTS }, { "quotient", quotient, 2, 2 },
    { "remainder", rest_of, 2, 2 }, { "<", below, 2, 2 }, { ">", above, 2, 2 },
    { "=", alike, 2, 2 },
    { "cons", cons, 2, 2 }, { "car", car, 1, 1 }, { "cdr", cdr, 1, 1 },
    { "null?", is_null, 1, 1 }, { "pair?", is_pair, 1, 1 }, { "symbol?", is_symbol, 1, 1 },
    { "number?", is_whole, 1, 1 }, { "text?", is_text, 1, 1 }, { "eq?", is_same, 2, 2 },
    { "equal?", is_equal, 2, 2 }, { "atom", atom, 1, 1 }, { "deref", deref, 1, 1 },
    { "reset!", reset, 2, 2 }, { "cas!", exchange, 3, 3 }, { "swap!", swap, 2, MOST_ARGUMENTS },
    { "spawn", start, 1, 1 }, { "await", wait, 1, 1 }, { "yield", yield, 0, 0 },
    { "print", write, 0, MOST_ARGUMENTS }, { "error", raise, 1, 1 }, { "apply", call_with, 2, 2 },
    { "cycles", count, 0, 0 }, { "used", used, 0, 0 },
};
enum { BUILTINS = sizeof builtins / sizeof builtins[0] };

value call_builtin(interpreter *t, uint64_t number_of_it, arguments a) {
    if (a.n < builtins[number_of_it].least || a.n > builtins[number_of_it].most)
        fail(t, WRONG_ARGUMENTS, number((int64_t)a.n));
    return builtins[number_of_it].function(t, a);
}

void builtins_open(interpreter *t) {
    size_t frame = mem_frame(t->m);
    for (size_t i = 0; i < BUILTINS; i++) {
        value name = mem_symbol(t->m, builtins[i].name, strlen(builtins[i].name));
        mem_define(t->m, name, mem_builtin(t->m, i));
        mem_leave(t->m, frame);
    }
}
