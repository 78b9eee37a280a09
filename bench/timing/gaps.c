/* Clocks for a build by build.py --gaps, which calls count_event before each command of a client: the
   file that GAPS names holds, for each thread, how many commands it began after its first one, the
   longest time between two such moments, by the clock and by the thread's own processor time, and
   the command after which the longest by the clock came. With -DLOOKS the program is one thread
   that only calls count_event, so many times: what gaps the machine itself makes. */
#include <fcntl.h>
#include <stdint.h>
#include <stdlib.h>
#include <sys/mman.h>
#include <time.h>
#include <unistd.h>

struct client {
    uint64_t last, own_last, commands, longest, own_longest, above_100us, above_1ms, longest_after;
};
struct file {
    uint64_t clients, unused[7];
    struct client all[64];
};
static struct file nowhere, *file = &nowhere;
static __thread struct client *me;

static uint64_t now(clockid_t clock) {
    struct timespec at;
    clock_gettime(clock, &at);
    return at.tv_sec * 1000000000ull + at.tv_nsec;
}

__attribute__((constructor)) static void begin(void) {
    const char *name = getenv("GAPS");
    int at = name ? open(name, O_RDWR | O_CREAT, 0666) : -1;
    if (at < 0 || ftruncate(at, sizeof nowhere)) return;
    void *found = mmap(0, sizeof nowhere, PROT_READ | PROT_WRITE, MAP_SHARED, at, 0);
    if (found != MAP_FAILED) file = found;
    close(at);
}

void count_event(int64_t k) {
    (void)k;
    if (!me) me = &file->all[__atomic_fetch_add(&file->clients, 1, __ATOMIC_SEQ_CST) % 64];
    uint64_t own = now(CLOCK_THREAD_CPUTIME_ID), at = now(CLOCK_MONOTONIC);
    if (me->last) {
        uint64_t gap = at - me->last, own_gap = own - me->own_last;
        me->commands++;
        if (gap > me->longest) me->longest = gap, me->longest_after = me->commands;
        if (own_gap > me->own_longest) me->own_longest = own_gap;
        me->above_100us += gap > 100000;
        me->above_1ms += gap > 1000000;
    }
    me->own_last = now(CLOCK_THREAD_CPUTIME_ID);
    me->last = now(CLOCK_MONOTONIC);
}

#ifdef LOOKS
int main(void) {
    for (int k = 0; k < LOOKS; k++) count_event(0);
}
#endif
