/* Loaded before the C library, refuses to make one of the threads that are asked for, by its number
 * in REFUSE_THREAD, and where REFUSE_REST is 1 each one behind it, as a limit on the threads of a
 * process does. */
#define _GNU_SOURCE
#include <dlfcn.h>
#include <errno.h>
#include <pthread.h>
#include <stdatomic.h>
#include <stdlib.h>

typedef int maker(pthread_t *, const pthread_attr_t *, void *(*)(void *), void *);

static atomic_long asked;

int pthread_create(pthread_t *made, const pthread_attr_t *how, void *(*start)(void *), void *with)
{
    const char *at = getenv("REFUSE_THREAD"), *rest = getenv("REFUSE_REST");
    long first = at ? atol(at) : 0;
    long number = atomic_fetch_add(&asked, 1) + 1;
    if (first > 0 && (number == first || (rest && *rest == '1' && number > first)))
        return EAGAIN;
    return ((maker *)dlsym(RTLD_NEXT, "pthread_create"))(made, how, start, with);
}
