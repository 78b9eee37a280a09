/* Threads: a task is a cell that names a function, and then what came of it. Who waits for a task
 * is parked, and looks at the cell again each time that some task was settled. */
#define _POSIX_C_SOURCE 200809L
#include "lisp.h"
#include <time.h>

enum { DONE = 1 }; /* a task's state; with a fault it is 1 more than the fault's number */

static interpreter all[MEM_SEATS];
static int busy[MEM_SEATS], was_busy[MEM_SEATS]; /* the second one: its thread has to be joined */
static unsigned long settled, running;
static pthread_mutex_t lock = PTHREAD_MUTEX_INITIALIZER;
static pthread_cond_t change = PTHREAD_COND_INITIALIZER;

static void out_of(void *owner, mem_fault fault) {
    fail(owner, fault == MEM_FULL ? OUT_OF_MEMORY : TOO_DEEP, nil());
}

static interpreter *at_seat(size_t i) {
    interpreter *t = &all[i];
    t->m = mem_seat(i);
    mem_on_fault(t->m, out_of, t);
    t->depth = 0;
    t->out_length = 0;
    return t;
}

interpreter *first_interpreter(void) {
    busy[0] = 1;
    return at_seat(0);
}

static interpreter *get_seat(void) {
    size_t i = 0;
    pthread_mutex_lock(&lock);
    while (i < MEM_SEATS && busy[i]) i++;
    if (i < MEM_SEATS) { busy[i] = 1; running++; }
    pthread_mutex_unlock(&lock);
    if (i == MEM_SEATS) return NULL;
    if (was_busy[i]) pthread_join(all[i].thread, NULL); /* it is at its end */
    was_busy[i] = 0;
    return at_seat(i);
}

static void put_back(interpreter *t) {
    mem_exit(t->m);
    pthread_mutex_lock(&lock);
    busy[t - all] = 0;
    running--;
    settled++;
    pthread_cond_broadcast(&change);
    pthread_mutex_unlock(&lock);
}

int start_thread(interpreter *t, void *(*run)(void *given), void *given) {
    pthread_attr_t attributes;
    pthread_attr_init(&attributes);
    pthread_attr_setstacksize(&attributes, STACK_BYTES);
    int answer = pthread_create(&t->thread, &attributes, run, given);
    pthread_attr_destroy(&attributes);
    return answer == 0;
}

static void *work(void *given) {
    interpreter *t = given;
    size_t frame = mem_frame(t->m);
    if (setjmp(t->top) == 0) {
        t->truth = mem_symbol(t->m, "t", 1);
        value v = apply(t, mem_work(t->m, t->task), (arguments){ NULL, 0 });
        mem_settle(t->m, t->task, DONE, 0, v);
    } else {
        t->subject = mem_give(t->m, frame, t->subject);
        mem_settle(t->m, t->task, DONE + (uint64_t)t->why, t->at, t->subject);
    }
    put_back(t);
    return NULL;
}

value spawn(interpreter *t, value function) {
    value task = mem_task(t->m, function);
    interpreter *other = get_seat();
    if (!other) fail(t, NO_THREAD, nil());
    if (!mem_enter(other->m)) {
        put_back(other);
        fail(t, OUT_OF_MEMORY, nil());
    }
    other->task = mem_hand(t->m, task, other->m);
    other->at = t->at;
    was_busy[other - all] = 1;
    if (!start_thread(other, work, other)) {
        was_busy[other - all] = 0;
        put_back(other);
        fail(t, NO_THREAD, nil());
    }
    return task;
}

value await(interpreter *t, value task) {
    value v;
    uint64_t at, state;
    if (!is_kind(t, task, TASK)) fail(t, NOT_A_TASK, task);
    for (;;) {
        pthread_mutex_lock(&lock);
        unsigned long before = settled;
        pthread_mutex_unlock(&lock);
        if ((state = mem_settled(t->m, task, &at, &v)) != 0) break;
        mem_park(t->m);
        pthread_mutex_lock(&lock);
        while (settled == before) pthread_cond_wait(&change, &lock);
        pthread_mutex_unlock(&lock);
        mem_unpark(t->m);
    }
    if (state == DONE) return v;
    t->at = at;
    fail(t, (fault)(state - DONE), v);
}

void give_way(interpreter *t) {
    struct timespec time = { 0, 50000 };
    mem_park(t->m);
    nanosleep(&time, NULL);
    mem_unpark(t->m);
}

void await_all(interpreter *t) {
    mem_park(t->m);
    pthread_mutex_lock(&lock);
    while (running > 0) pthread_cond_wait(&change, &lock);
    pthread_mutex_unlock(&lock);
    for (size_t i = 0; i < MEM_SEATS; i++)
        if (was_busy[i]) pthread_join(all[i].thread, NULL);
    mem_unpark(t->m);
}
