/* Printing, to a buffer of the thread first. Lists are cut off after so many items, and what is
 * nested too deeply, as an atom in itself, is three points. */
#include "lisp.h"
#include <string.h>

enum { MOST_LEVELS = 24, MOST_ITEMS = 1000 };

void flush(interpreter *t) {
    mem_park(t->m);
    fwrite(t->out, 1, t->out_length, stdout);
    mem_unpark(t->m);
    t->out_length = 0;
}

static void put(interpreter *t, char c) {
    if (t->out_length == OUT) flush(t);
    t->out[t->out_length++] = c;
}

void print_text(interpreter *t, const char *text) {
    while (*text) put(t, *text++);
}

static void print_chars(interpreter *t, value text, int quoted) {
    char chars[MEM_TEXT];
    size_t n = mem_chars(t->m, text, chars);
    if (quoted) put(t, '"');
    for (size_t i = 0; i < n; i++) {
        if (quoted && (chars[i] == '"' || chars[i] == '\\')) put(t, '\\');
        if (quoted && chars[i] == '\n') print_text(t, "\\n");
        else put(t, chars[i]);
    }
    if (quoted) put(t, '"');
}

static void print_within(interpreter *t, value v, int quoted, int levels);

static void print_list(interpreter *t, value pair, int levels) {
    size_t frame = mem_frame(t->m);
    value first;
    put(t, '(');
    for (int i = 0; is_kind(t, pair, PAIR); i++) {
        if (i > 0) put(t, ' ');
        if (i == MOST_ITEMS) { print_text(t, "...)"); return; }
        mem_open_pair(t->m, pair, &first, &pair);
        print_within(t, first, 1, levels);
        pair = mem_give(t->m, frame, pair);
        mem_answer(t->m);
    }
    if (!is_nil(pair)) {
        print_text(t, " . ");
        print_within(t, pair, 1, levels);
    }
    put(t, ')');
}

static void print_cell(interpreter *t, value v, int quoted, int levels) {
    switch (kind_of(mem_word(t->m, v))) {
    case PAIR: print_list(t, v, levels); return;
    case SYMBOL: print_chars(t, mem_name(t->m, v), 0); return;
    case TEXT: print_chars(t, v, quoted); return;
    case ATOM:
        print_text(t, "#<atom ");
        print_within(t, mem_get(t->m, v), 1, levels);
        print_text(t, ">");
        return;
    case TASK: print_text(t, "#<task>"); return;
    default: print_text(t, "#<function>"); return;
    }
}

static void print_within(interpreter *t, value v, int quoted, int levels) {
    size_t frame = mem_frame(t->m);
    char digits[24];
    if (is_nil(v)) print_text(t, "()");
    if (is_number(v)) {
        snprintf(digits, sizeof digits, "%lld", (long long)number_of(v));
        print_text(t, digits);
    }
    if (is_cell(v)) {
        if (levels == 0) print_text(t, "...");
        else print_cell(t, v, quoted, levels - 1);
    }
    mem_leave(t->m, frame);
}

void print(interpreter *t, value v, int quoted) { print_within(t, v, quoted, MOST_LEVELS); }
