/* Loaded before the C library, holds up who makes a thread, behind the thread with the number in
 * DELAY_BEHIND, for so many microseconds as DELAY_FOR says. */
#define _GNU_SOURCE
#include <dlfcn.h>
#include <pthread.h>
#include <stdatomic.h>
#include <stdlib.h>
#include <unistd.h>

typedef int maker(pthread_t *, const pthread_attr_t *, void *(*)(void *), void *);

static atomic_long asked;

int pthread_create(pthread_t *made, const pthread_attr_t *how, void *(*start)(void *), void *with)
{
    const char *behind = getenv("DELAY_BEHIND"), *by = getenv("DELAY_FOR");
    long number = atomic_fetch_add(&asked, 1) + 1;
    int found = ((maker *)dlsym(RTLD_NEXT, "pthread_create"))(made, how, start, with);
    if (behind && by && number == atol(behind))
        usleep(atol(by));
    return found;
}
