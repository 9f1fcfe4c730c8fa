/* Preloaded into a program, this has its sleeps take no time, has its monotonic clock go on by what was slept and by nothing else, and
 * counts that.
 *
 * The file SLEPT_RECORD gets the nanoseconds of all sleeps, as a number of 64 bits; it is mapped, so it is right however the program
 * ends. Sleeps of several threads at once are added up, so that the clock is that of a program of which one thread sleeps. */
#define _GNU_SOURCE
#include <dlfcn.h>
#include <fcntl.h>
#include <stdatomic.h>
#include <stdint.h>
#include <stdlib.h>
#include <sys/mman.h>
#include <time.h>
#include <unistd.h>

static const uint64_t SECOND = 1000000000;

static _Atomic uint64_t unmapped;
static _Atomic uint64_t *slept = &unmapped;

__attribute__((constructor)) static void prepare(void)
{
    const char *path = getenv("SLEPT_RECORD");
    int file = path == NULL ? -1 : open(path, O_RDWR | O_CLOEXEC);
    void *mapped = file == -1 ? MAP_FAILED : mmap(NULL, sizeof unmapped, PROT_READ | PROT_WRITE, MAP_SHARED, file, 0);
    if (mapped == MAP_FAILED)
        _exit(99);
    close(file);
    slept = mapped;
}

int nanosleep(const struct timespec *time, struct timespec *left)
{
    (void)left;
    atomic_fetch_add(slept, (uint64_t)time->tv_sec * SECOND + (uint64_t)time->tv_nsec);
    return 0;
}

int clock_gettime(clockid_t clock, struct timespec *time)
{
    if (clock != CLOCK_MONOTONIC)
        return ((typeof(clock_gettime) *)dlsym(RTLD_NEXT, "clock_gettime"))(clock, time);
    uint64_t now = SECOND + atomic_load(slept);
    time->tv_sec = (time_t)(now / SECOND);
    time->tv_nsec = (long)(now % SECOND);
    return 0;
}
