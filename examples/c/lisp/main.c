/* The prompt, and scripts:
 *
 *     lisp [--cells N] [--always] [FILE [NUMBER ..]]
 *
 * Without FILE it reads forms from standard input and shows their values. `arguments` is the list
 * of the numbers. --cells is how many cells the heap has; with --always one cycle of the collector
 * follows another. After a fault it goes on with the next form. Status: 0; 1 after a fault; 2 if it
 * could not begin. */
#define _POSIX_C_SOURCE 200809L
#include "lisp.h"
#include <stdlib.h>
#include <string.h>
#include <unistd.h>

typedef struct {
    interpreter *t;
    FILE *file;
    const char *prompt;
    char **numbers;
    int status, is_shown;
    long cells;
    value reserve; /* an atom: a list of cells that can be given up, so that a form can be read when
                    * all the others are used */
} session;

enum { MOST_RESERVED = 1000, PART_RESERVED = 16 };

static void report(interpreter *t) {
    char place[64];
    t->out_length = 0;
    print_text(t, "error: ");
    print_text(t, names_of_faults[t->why]);
    snprintf(place, sizeof place, " at %llu:%llu", (unsigned long long)t->at / 4096,
             (unsigned long long)t->at % 4096);
    print_text(t, place);
    if (t->why <= RAISED) {
        print_text(t, ": ");
        print(t, t->subject, 1);
    }
    print_text(t, "\n");
    flush(t);
}

/* Makes the reserve again if it was given up and there is room. */
static void fill_reserve(session *s) {
    interpreter *t = s->t;
    size_t frame = mem_frame(t->m);
    value list = nil();
    if (is_cell(mem_get(t->m, s->reserve))) { mem_leave(t->m, frame); return; }
    if (setjmp(t->top) == 0) {
        for (long i = 0; i < MOST_RESERVED && i < s->cells / PART_RESERVED; i++)
            list = mem_give(t->m, frame, mem_pair(t->m, 0, nil(), list));
        mem_set(t->m, s->reserve, list);
        mem_leave(t->m, frame);
    } else {
        mem_leave(t->m, frame);
        mem_recover(t->m);
    }
}

/* One form: 0 at the end. After a fault nothing is left but what it did to atoms and names. */
static int does_form(session *s, reader *r) {
    interpreter *t = s->t;
    size_t frame = mem_frame(t->m);
    value form;
    fill_reserve(s);
    t->depth = 0;
    if (setjmp(t->top) != 0) {
        t->subject = mem_give(t->m, frame, t->subject);
        if (t->why == OUT_OF_MEMORY) mem_set(t->m, s->reserve, nil());
        report(t);
        mem_leave(t->m, frame);
        if (t->why == OUT_OF_MEMORY) mem_recover(t->m);
        skip_form(t, r);
        s->status = 1;
        return 1;
    }
    if (!read_form(t, r, &form)) return 0;
    form = evaluate(t, form, nil());
    if (s->is_shown && r->file) {
        print(t, form, 1);
        print_text(t, "\n");
        flush(t);
    }
    mem_leave(t->m, frame);
    return 1;
}

static void usage(void) {
    fprintf(stderr, "usage: lisp [--cells N] [--always] [--cycles FILE] [FILE [NUMBER ..]]\n");
    exit(2);
}

static int64_t argument(const char *text) {
    char *end;
    long long n = strtoll(text, &end, 10);
    if (*end || end == text || n < MEM_LEAST || n > MEM_MOST) usage();
    return n;
}

static void define(interpreter *t, const char *name, value v) {
    size_t frame = mem_frame(t->m);
    mem_define(t->m, mem_symbol(t->m, name, strlen(name)), v);
    mem_leave(t->m, frame);
}

static void opens(session *s) {
    interpreter *t = s->t;
    value list = nil();
    size_t n = 0;
    evaluator_opens(t);
    s->reserve = mem_atom(t->m, nil());
    t->truth = mem_symbol(t->m, "t", 1);
    builtins_open(t);
    define(t, "t", t->truth);
    define(t, "else", t->truth);
    define(t, "nil", nil());
    while (s->numbers[n]) n++;
    while (n > 0) list = mem_pair(t->m, 0, number(argument(s->numbers[--n])), list);
    define(t, "arguments", list);
}

static void *run(void *given) {
    session *s = given;
    reader r = { .file = s->file, .prompt = s->prompt, .row = 1, .column = 1 };
    if (setjmp(s->t->top) != 0 || !mem_enter(s->t->m)) {
        fprintf(stderr, "lisp: the heap has too few cells\n");
        exit(2);
    }
    opens(s);
    for (size_t i = 0; prelude[i]; i++) {
        reader own = { .text = prelude[i] };
        while (does_form(s, &own)) continue;
    }
    while (does_form(s, &r)) continue;
    await_all(s->t);
    mem_exit(s->t->m);
    return NULL;
}

int main(int argc, char **argv) {
    session s = { .file = stdin, .is_shown = 1, .cells = 1000000 };
    FILE *cycle_lines = NULL;
    int always = 0;
    for (argv++; *argv && strncmp(*argv, "--", 2) == 0; argv++) {
        if (strcmp(*argv, "--always") == 0) always = 1;
        else if (strcmp(*argv, "--cycles") == 0 && argv[1]) {
            cycle_lines = fopen(*++argv, "w");
            if (!cycle_lines) { perror("lisp"); return 2; }
        }
        else if (strcmp(*argv, "--cells") == 0 && argv[1]) s.cells = (long)argument(*++argv);
        else usage();
    }
    (void)argc;
    if (*argv) {
        s.is_shown = 0;
        s.file = fopen(*argv++, "r");
        if (!s.file) { perror("lisp"); return 2; }
    } else if (isatty(STDIN_FILENO)) {
        s.prompt = "> ";
    }
    s.numbers = argv;
    s.t = first_interpreter();
    if (s.cells < 1 || s.cells > 4194304) usage();
    if (!mem_open((uint32_t)s.cells, always, cycle_lines) || !start_thread(s.t, run, &s)) {
        fprintf(stderr, "lisp: out of memory\n");
        return 2;
    }
    pthread_join(s.t->thread, NULL);
    mem_close();
    if (cycle_lines) fclose(cycle_lines);
    if (s.file != stdin) fclose(s.file);
    return s.status;
}
