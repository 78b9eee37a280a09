/* Loaded before the C library, refuses memory to one of the calls that ask for it, by its number in
 * REFUSE_AT, and where REFUSE_REST is 1 to each call behind it. How many calls there were stands in
 * the first eight bytes of the file that REFUSE_COUNTS names, also where the program ends by
 * _exit. */
#include <errno.h>
#include <fcntl.h>
#include <stdatomic.h>
#include <stdlib.h>
#include <sys/mman.h>
#include <unistd.h>

extern void *__libc_malloc(size_t);
extern void *__libc_calloc(size_t, size_t);
extern void *__libc_realloc(void *, size_t);
extern void *__libc_memalign(size_t, size_t);

static atomic_long own;
static atomic_long *calls = &own;

__attribute__((constructor)) static void begin(void)
{
    const char *name = getenv("REFUSE_COUNTS");
    int file = name ? open(name, O_RDWR | O_CREAT | O_TRUNC, 0600) : -1;
    if (file < 0 || ftruncate(file, sizeof own))
        return;
    void *room = mmap(0, sizeof own, PROT_READ | PROT_WRITE, MAP_SHARED, file, 0);
    if (room != MAP_FAILED) {
        atomic_store((atomic_long *)room, atomic_load(&own));
        calls = room;
    }
}

static int is_refused(void)
{
    const char *at = getenv("REFUSE_AT"), *rest = getenv("REFUSE_REST");
    long first = at ? atol(at) : 0;
    long number = atomic_fetch_add(calls, 1) + 1;
    int refused = first > 0 && (number == first || (rest && *rest == '1' && number > first));
    if (refused)
        errno = ENOMEM;
    return refused;
}

void *malloc(size_t size) { return is_refused() ? 0 : __libc_malloc(size); }

void *calloc(size_t count, size_t size) { return is_refused() ? 0 : __libc_calloc(count, size); }

void *realloc(void *old, size_t size) { return is_refused() ? 0 : __libc_realloc(old, size); }

void *aligned_alloc(size_t align, size_t size)
{
    return is_refused() ? 0 : __libc_memalign(align, size);
}

int posix_memalign(void **made, size_t align, size_t size)
{
    void *found = is_refused() ? 0 : __libc_memalign(align, size);
    if (!found)
        return ENOMEM;
    *made = found;
    return 0;
}
