/* Evaluation. A tail call goes round the loop of `evaluate`: it takes neither stack nor places. */
#include "lisp.h"
#include <string.h>

/* A form has its value now, or it is that of the form x with these bindings. */
typedef enum { VALUE, GO_ON } step;
typedef step special(interpreter *t, value rest, value *x, value *bindings);

_Noreturn void fail(interpreter *t, fault why, value subject) {
    t->why = why;
    t->subject = subject;
    longjmp(t->top, 1);
}

void deeper(interpreter *t) {
    if (++t->depth > MOST_DEPTH) fail(t, TOO_DEEP, nil());
}

static value take(interpreter *t, value forms, value *rest) {
    value first;
    if (!is_kind(t, forms, PAIR)) fail(t, BAD_FORM, forms);
    mem_open_pair(t->m, forms, &first, rest);
    return first;
}

static uint64_t symbol_of(interpreter *t, value v) {
    uint64_t word = word_of(t, v);
    if (kind_of(word) != SYMBOL) fail(t, BAD_FORM, v);
    return info_of(word);
}

static value value_of(interpreter *t, value symbol, uint64_t info, value bindings) {
    value v;
    if (!mem_find(t->m, bindings, info, &v) && !mem_global(t->m, symbol, &v))
        fail(t, UNBOUND, symbol);
    return v;
}

/* Evaluates all forms but the last one, which is x then. */
static step sequence(interpreter *t, value forms, value *x, value *bindings) {
    *x = nil();
    while (!is_nil(forms)) {
        size_t frame = mem_frame(t->m);
        *x = take(t, forms, &forms);
        if (is_nil(forms)) break;
        (void)evaluate(t, *x, *bindings);
        mem_give_two(t->m, frame, &forms, bindings);
    }
    return GO_ON;
}

/* Binds a function's parameters. Where they end in a symbol it has the list of all further ones. */
static step enter(interpreter *t, value function, arguments a, value *x, value *bindings) {
    uint64_t word = word_of(t, function);
    value parts[4];
    size_t i = 0;
    if (kind_of(word) == BUILTIN) {
        *x = call_builtin(t, info_of(word), a);
        return VALUE;
    }
    if (kind_of(word) != CLOSURE) fail(t, NOT_A_FUNCTION, function);
    mem_parts(t->m, function, parts);
    value parameters = parts[0], body = parts[1], b = parts[2], name = parts[3];
    if (is_cell(name)) b = mem_binding(t->m, symbol_of(t, name), function, b);
    for (; i < a.n && is_kind(t, parameters, PAIR); i++) {
        value parameter = take(t, parameters, &parameters);
        b = mem_binding(t->m, symbol_of(t, parameter), a.at[i], b);
    }
    if (is_kind(t, parameters, SYMBOL)) {
        value list = nil();
        for (size_t n = a.n; n > i; n--) list = mem_pair(t->m, 0, a.at[n - 1], list);
        b = mem_binding(t->m, symbol_of(t, parameters), list, b);
    } else if (i < a.n || !is_nil(parameters)) {
        fail(t, WRONG_ARGUMENTS, number((int64_t)a.n));
    }
    *bindings = b;
    return sequence(t, body, x, bindings);
}

static step call(interpreter *t, value head, value rest, value *x, value *bindings) {
    value given[MOST_ARGUMENTS], function = evaluate(t, head, *bindings);
    size_t n = 0;
    for (; !is_nil(rest); n++) {
        value form = take(t, rest, &rest);
        if (n == MOST_ARGUMENTS) fail(t, WRONG_ARGUMENTS, number(MOST_ARGUMENTS + 1));
        given[n] = evaluate(t, form, *bindings);
    }
    return enter(t, function, (arguments){ given, n }, x, bindings);
}

/* The special forms. */

static step quote(interpreter *t, value rest, value *x, value *bindings) {
    (void)bindings;
    *x = take(t, rest, &rest);
    return VALUE;
}

static step choose(interpreter *t, value rest, value *x, value *bindings) {
    value test = take(t, rest, &rest), then = take(t, rest, &rest);
    if (!is_nil(evaluate(t, test, *bindings))) *x = then;
    else *x = is_nil(rest) ? nil() : take(t, rest, &rest);
    return GO_ON;
}

static step lambda(interpreter *t, value rest, value *x, value *bindings) {
    value parameters = take(t, rest, &rest);
    *x = mem_closure(t->m, parameters, rest, *bindings, nil());
    return VALUE;
}

/* (define NAME FORM) or (define (NAME PARAMETER ..) FORM ..), at the top alone. */
static step define(interpreter *t, value rest, value *x, value *bindings) {
    value name = take(t, rest, &rest), parameters, v;
    if (is_cell(*bindings)) fail(t, BAD_FORM, name);
    if (is_kind(t, name, PAIR)) {
        name = take(t, name, &parameters);
        v = mem_closure(t->m, parameters, rest, nil(), nil());
    } else {
        v = evaluate(t, take(t, rest, &rest), nil());
    }
    if (symbol_number(symbol_of(t, name)) < SPECIALS) fail(t, BAD_FORM, name);
    mem_define(t->m, name, v);
    *x = name;
    return VALUE;
}

static step begin(interpreter *t, value rest, value *x, value *bindings) {
    return sequence(t, rest, x, bindings);
}

/* (let NAME ((PARAMETER FORM) ..) FORM ..): a function that knows itself by the name, called. */
static step loop(interpreter *t, value name, value rest, value *x, value *bindings) {
    value names[MOST_ARGUMENTS], given[MOST_ARGUMENTS], list = take(t, rest, &rest);
    size_t n = 0;
    for (; !is_nil(list); n++) {
        value pair = take(t, list, &list);
        if (n == MOST_ARGUMENTS) fail(t, WRONG_ARGUMENTS, number(MOST_ARGUMENTS + 1));
        names[n] = take(t, pair, &pair);
        given[n] = evaluate(t, take(t, pair, &pair), *bindings);
    }
    for (size_t i = n; i > 0; i--) list = mem_pair(t->m, 0, names[i - 1], list);
    value function = mem_closure(t->m, list, rest, *bindings, name);
    return enter(t, function, (arguments){ given, n }, x, bindings);
}

/* (let ((NAME FORM) ..) FORM ..): each form sees the names before it. */
static step let(interpreter *t, value rest, value *x, value *bindings) {
    value list = take(t, rest, &rest);
    if (is_kind(t, list, SYMBOL)) return loop(t, list, rest, x, bindings);
    while (!is_nil(list)) {
        value pair = take(t, list, &list), name = take(t, pair, &pair);
        value v = evaluate(t, take(t, pair, &pair), *bindings);
        *bindings = mem_binding(t->m, symbol_of(t, name), v, *bindings);
    }
    return sequence(t, rest, x, bindings);
}

/* (cond (TEST FORM ..) ..); `else` is a test that holds. */
static step cond(interpreter *t, value rest, value *x, value *bindings) {
    while (!is_nil(rest)) {
        value forms = take(t, rest, &rest), test = take(t, forms, &forms);
        *x = evaluate(t, test, *bindings);
        if (is_nil(*x)) continue;
        return is_nil(forms) ? VALUE : sequence(t, forms, x, bindings);
    }
    *x = nil();
    return VALUE;
}

/* The first value that is nil, or is not. */
static step until(interpreter *t, value rest, value *x, value *bindings, int ends_at_nil) {
    *x = is_nil(rest) && ends_at_nil ? t->truth : nil();
    while (!is_nil(rest)) {
        *x = take(t, rest, &rest);
        if (is_nil(rest)) return GO_ON;
        *x = evaluate(t, *x, *bindings);
        if (is_nil(*x) == ends_at_nil) break;
    }
    return VALUE;
}

static step and(interpreter *t, value rest, value *x, value *bindings) {
    return until(t, rest, x, bindings, 1);
}

static step or(interpreter *t, value rest, value *x, value *bindings) {
    return until(t, rest, x, bindings, 0);
}

/* In the order of their symbols' numbers. */
static const struct { const char *name; special *form; } specials[] = {
    { "quote", quote }, { "if", choose }, { "lambda", lambda }, { "define", define },
    { "begin", begin }, { "let", let }, { "cond", cond }, { "and", and }, { "or", or },
};
_Static_assert(sizeof specials / sizeof specials[0] == SPECIALS, "as many as lisp.h says");

void evaluator_opens(interpreter *t) {
    for (size_t i = 0; i < SPECIALS; i++)
        (void)mem_symbol(t->m, specials[i].name, strlen(specials[i].name));
}

static step go_on(interpreter *t, value *x, value *bindings) {
    uint64_t word = word_of(t, *x);
    value head, rest;
    mem_answer(t->m);
    if (kind_of(word) == SYMBOL) *x = value_of(t, *x, info_of(word), *bindings);
    if (kind_of(word) != PAIR) return VALUE;
    if (info_of(word)) t->at = info_of(word);
    mem_open_pair(t->m, *x, &head, &rest);
    word = word_of(t, head);
    if (kind_of(word) == SYMBOL && symbol_number(info_of(word)) < SPECIALS)
        return specials[symbol_number(info_of(word))].form(t, rest, x, bindings);
    return call(t, head, rest, x, bindings);
}

value evaluate(interpreter *t, value form, value bindings) {
    size_t frame = mem_frame(t->m);
    uint64_t at = t->at;
    deeper(t);
    while (go_on(t, &form, &bindings) == GO_ON) mem_give_two(t->m, frame, &form, &bindings);
    t->depth--;
    t->at = at;
    return mem_give(t->m, frame, form);
}

value apply(interpreter *t, value function, arguments a) {
    size_t frame = mem_frame(t->m);
    value x = nil(), bindings = nil();
    if (enter(t, function, a, &x, &bindings) == GO_ON) x = evaluate(t, x, bindings);
    return mem_give(t->m, frame, x);
}
