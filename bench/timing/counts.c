/* Counters for a build by build.py --count: the file that COUNTS names holds them, 64 bytes apart. */
#include <fcntl.h>
#include <stdint.h>
#include <stdlib.h>
#include <sys/mman.h>
#include <unistd.h>

static uint64_t nowhere[512], *counters = nowhere;

__attribute__((constructor)) static void begin(void) {
    const char *name = getenv("COUNTS");
    int file = name ? open(name, O_RDWR | O_CREAT, 0666) : -1;
    if (file < 0 || ftruncate(file, 4096)) return;
    void *found = mmap(0, 4096, PROT_READ | PROT_WRITE, MAP_SHARED, file, 0);
    if (found != MAP_FAILED) counters = found;
    close(file);
}

void count_event(int64_t k) { __atomic_fetch_add(&counters[8 * k], 1, __ATOMIC_RELAXED); }
