/* What the programs that measure share: clocks, the longest call, and what a run took. */
#ifndef FIGURES_H
#define FIGURES_H
#include <stdint.h>
#include <stdio.h>
#include <time.h>

/* The longest call that did its work, and the longest that had to wait for a cell first. */
typedef struct { uint64_t call, wait; } longest;

static inline uint64_t nanoseconds(clockid_t clock) {
    struct timespec t;
    (void)clock_gettime(clock, &t);
    return (uint64_t)t.tv_sec * 1000000000U + (uint64_t)t.tv_nsec;
}

/* A call may be timed, which costs more than a short one. */
static int clocks = 0;
static inline uint64_t begins(void) { return clocks ? nanoseconds(CLOCK_MONOTONIC) : 0; }
static inline void ends(uint64_t from, uint64_t *longest_call) {
    if (!clocks) return;
    uint64_t took = nanoseconds(CLOCK_MONOTONIC) - from;
    if (took > *longest_call) *longest_call = took;
}

/* The most memory that the program had, in MB. */
static inline long most_memory(void) {
    char line[128];
    long most = 0;
    FILE *file = fopen("/proc/self/status", "r");
    while (file && fgets(line, sizeof line, file))
        if (sscanf(line, "VmHWM: %ld", &most) == 1) break;
    if (file) fclose(file);
    return most / 1024;
}

static inline void print_figures(int threads, uint64_t from, longest most) {
    fprintf(stderr, "threads %d, wall %.2f s, processor %.2f s, memory %ld MB", threads,
            (double)(nanoseconds(CLOCK_MONOTONIC) - from) / 1e9,
            (double)nanoseconds(CLOCK_PROCESS_CPUTIME_ID) / 1e9, most_memory());
    if (clocks)
        fprintf(stderr, ", longest call %.3f ms, and of those that wait %.3f ms",
                (double)most.call / 1e6, (double)most.wait / 1e6);
    fprintf(stderr, "\n");
}
#endif
