/* Reading forms, with the place of each parenthesis that opens. */
#include "lisp.h"
#include <string.h>

enum { MOST_TOKEN = 64 };

/* The next byte, which stays; the thread is parked while it waits for a line. */
static int peek(interpreter *t, reader *r) {
    if (!r->file) return *r->text ? (unsigned char)*r->text : EOF;
    if (r->line[r->next]) return (unsigned char)r->line[r->next];
    if (r->prompt) printf("%s", r->open ? "  " : r->prompt);
    mem_park(t->m);
    fflush(stdout);
    char *line = fgets(r->line, sizeof r->line, r->file);
    mem_unpark(t->m);
    r->next = 0;
    if (!line) r->line[0] = 0;
    return r->line[0] ? (unsigned char)r->line[0] : EOF;
}

static int take(interpreter *t, reader *r) {
    int c = peek(t, r);
    if (c == EOF) return c;
    if (r->file) r->next++; else r->text++;
    if (c == '\n') { r->row++; r->column = 1; }
    else if ((c & 0xc0) != 0x80) r->column++; /* bytes within a character of UTF-8 do not count */
    return c;
}

static uint64_t here(const reader *r) { return r->file ? at_of(r->row, r->column) : 0; }

static int is_blank(int c) { return c == ' ' || c == '\t' || c == '\r' || c == '\n'; }
static int ends_token(int c) { return c == EOF || is_blank(c) || strchr("()'\";", c); }

/* The byte that a form begins with. */
static int skip_blanks(interpreter *t, reader *r) {
    int c = peek(t, r);
    while (is_blank(c) || c == ';') {
        if (c == ';') while (c != EOF && c != '\n') c = take(t, r);
        else (void)take(t, r);
        c = peek(t, r);
    }
    return c;
}

/* A byte of a text, after its first quote: -1 at its end, which has to be there. */
static int text_byte(interpreter *t, reader *r) {
    int c = take(t, r);
    if (c == '"') return -1;
    if (c == '\\') {
        c = take(t, r);
        if (c == 'n') c = '\n';
    }
    if (c == EOF) fail(t, UNCLOSED, nil());
    return c;
}

static value read_text(interpreter *t, reader *r) {
    char text[MEM_TEXT];
    size_t n = 0;
    (void)take(t, r);
    for (int c = text_byte(t, r); c >= 0; c = text_byte(t, r), n++)
        if (n < MEM_TEXT) text[n] = (char)c;
    if (n > MEM_TEXT) fail(t, TOO_LONG, nil());
    return mem_text(t->m, text, n);
}

static value read_number(interpreter *t, const char *digits, int is_negative) {
    int64_t n = 0;
    for (; *digits; digits++) {
        int digit = *digits - '0';
        if (n > (MEM_MOST + is_negative - digit) / 10) fail(t, BAD_NUMBER, nil());
        n = n * 10 + digit;
    }
    return number(is_negative ? -n : n);
}

/* A number or a symbol, and whether it is a point alone. */
static int read_token(interpreter *t, reader *r, value *v) {
    char token[MOST_TOKEN + 1];
    size_t n = 0;
    while (!ends_token(peek(t, r))) {
        int c = take(t, r);
        if (n < MOST_TOKEN) token[n] = (char)c;
        n++;
    }
    if (n > MOST_TOKEN) fail(t, TOO_LONG, nil());
    token[n] = 0;
    const char *digits = token + (token[0] == '-');
    if (*digits && strspn(digits, "0123456789") == strlen(digits))
        *v = read_number(t, digits, token[0] == '-');
    else
        *v = mem_symbol(t->m, token, n);
    return strcmp(token, ".") == 0;
}

static value read_value(interpreter *t, reader *r, int *is_point);

/* The items are put in front of one another, and turned round at the end. After a point there is
 * one more, the list's end. */
static value read_list(interpreter *t, reader *r) {
    size_t frame = mem_frame(t->m);
    uint64_t at = here(r);
    value items = nil(), list = nil(), item;
    int points = 0, ends = 0, is_point;
    (void)take(t, r);
    r->open++;
    while (skip_blanks(t, r) != ')' && peek(t, r) != EOF && ends == 0) {
        item = read_value(t, r, &is_point);
        if (is_point) points++;
        else if (points) { list = item; ends = 1; }
        else items = mem_pair(t->m, 0, item, items);
        mem_give_two(t->m, frame, &items, &list);
    }
    t->at = at;
    if (peek(t, r) == EOF) fail(t, UNCLOSED, nil());
    if (peek(t, r) != ')' || points != ends) fail(t, BAD_FORM, items);
    (void)take(t, r);
    r->open--;
    while (is_cell(items)) {
        value rest;
        mem_open_pair(t->m, items, &item, &rest);
        list = mem_pair(t->m, is_nil(rest) ? at : 0, item, list);
        items = rest;
        mem_give_two(t->m, frame, &items, &list);
    }
    return list;
}

static value read_quoted(interpreter *t, reader *r) {
    size_t frame = mem_frame(t->m);
    uint64_t at = here(r);
    int is_point;
    (void)take(t, r);
    if (skip_blanks(t, r) == EOF) fail(t, UNCLOSED, nil());
    value v = mem_pair(t->m, 0, read_value(t, r, &is_point), nil());
    return mem_give(t->m, frame, mem_pair(t->m, at, mem_symbol(t->m, "quote", 5), v));
}

static value read_value(interpreter *t, reader *r, int *is_point) {
    value v;
    *is_point = 0;
    t->at = here(r);
    deeper(t);
    switch (peek(t, r)) {
    case '(': v = read_list(t, r); break;
    case '\'': v = read_quoted(t, r); break;
    case '"': v = read_text(t, r); break;
    case ')':
        (void)take(t, r);
        fail(t, UNOPENED, nil());
    default: *is_point = read_token(t, r, &v); break;
    }
    t->depth--;
    return v;
}

int read_form(interpreter *t, reader *r, value *form) {
    int is_point;
    if (skip_blanks(t, r) == EOF) return 0;
    uint64_t at = here(r);
    *form = read_value(t, r, &is_point);
    t->at = at;
    return 1;
}

void skip_form(interpreter *t, reader *r) {
    while (r->open > 0) {
        int c = skip_blanks(t, r) == EOF ? EOF : take(t, r);
        if (c == EOF) r->open = 0;
        if (c == '(') r->open++;
        if (c == ')') r->open--;
        if (c != '"') continue;
        while ((c = take(t, r)) != '"' && c != EOF)
            if (c == '\\') (void)take(t, r);
    }
}
