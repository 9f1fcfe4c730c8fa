/* Preloaded into a program, this refuses one of its allocations or one of its threads, and counts them.
 *
 * REFUSE_ALLOCATION=N refuses the Nth allocation and REFUSE_THREAD=N the Nth thread, from 1; REFUSE_REST=1 refuses all
 * that follow it too. REFUSE_LATE=N lets the Nth thread begin only after a tenth of a second. Counting begins with
 * `main`, so the system's own start-up is let be. The file REFUSE_COUNTS gets seven numbers of 64 bits: for allocations,
 * then for threads, those asked for, those refused, and 1 where `main` was reached; then the allocations of REFUSE_LARGE
 * bytes or more. It is mapped, so it is right however the program ends. Many runs may share a start: fork-runs.h. */
#define _GNU_SOURCE
#include <dlfcn.h>
#include <errno.h>
#include <fcntl.h>
#include <pthread.h>
#include <stdatomic.h>
#include <stddef.h>
#include <stdint.h>
#include <stdlib.h>
#include <sys/mman.h>
#include <unistd.h>

#include "fork-runs.h"

struct kind {
    _Atomic uint64_t asked, refused, counts;
};

enum { ALLOCATION, THREAD };

struct counts {
    struct kind kinds[2];
    _Atomic uint64_t large;
};

static struct counts unmapped;
static struct counts *counts = &unmapped;
static uint64_t large = UINT64_MAX;

/* The first that is refused, 0 for none, and whether all after it are. */
static uint64_t first[2];
static int refuses_rest;

extern void *__libc_malloc(size_t size);
extern void *__libc_calloc(size_t count, size_t size);
extern void *__libc_realloc(void *old, size_t size);
extern void *__libc_memalign(size_t alignment, size_t size);

static int is_refused(int kind)
{
    struct kind *own = &counts->kinds[kind];
    if (atomic_load(&own->counts) == 0)
        return 0;
    uint64_t number = atomic_fetch_add(&own->asked, 1) + 1;
    if (first[kind] == 0 || number < first[kind] || (number > first[kind] && !refuses_rest))
        return 0;
    atomic_fetch_add(&own->refused, 1);
    return 1;
}

static int no_memory(size_t size)
{
    if (size >= large)
        atomic_fetch_add(&counts->large, 1);
    if (!is_refused(ALLOCATION))
        return 0;
    errno = ENOMEM;
    return 1;
}

void *malloc(size_t size)
{
    return no_memory(size) ? NULL : __libc_malloc(size);
}

void *calloc(size_t count, size_t size)
{
    return no_memory(count * size) ? NULL : __libc_calloc(count, size);
}

void *realloc(void *old, size_t size)
{
    return no_memory(size) ? NULL : __libc_realloc(old, size);
}

void *memalign(size_t alignment, size_t size)
{
    return no_memory(size) ? NULL : __libc_memalign(alignment, size);
}

void *aligned_alloc(size_t alignment, size_t size)
{
    return memalign(alignment, size);
}

int posix_memalign(void **to, size_t alignment, size_t size)
{
    void *made = memalign(alignment, size);
    if (made == NULL)
        return ENOMEM;
    *to = made;
    return 0;
}

typedef int create(pthread_t *, const pthread_attr_t *, void *(*)(void *), void *);

/* The thread that begins late, 0 for none, and what it does then. */
static uint64_t late;
static struct {
    void *(*body)(void *);
    void *with;
} begun_late;

static void *begin_late(void *none)
{
    (void)none;
    usleep(100000);
    return begun_late.body(begun_late.with);
}

int pthread_create(pthread_t *thread, const pthread_attr_t *attributes, void *(*body)(void *), void *with)
{
    static create *system_create;
    if (system_create == NULL)
        system_create = (create *)dlsym(RTLD_NEXT, "pthread_create");
    if (is_refused(THREAD))
        return EAGAIN;
    if (late == 0 || atomic_load(&counts->kinds[THREAD].asked) != late)
        return system_create(thread, attributes, body, with);
    begun_late.body = body;
    begun_late.with = with;
    return system_create(thread, attributes, begin_late, NULL);
}

static uint64_t number_of(const char *name)
{
    const char *text = getenv(name);
    return text == NULL ? 0 : strtoull(text, NULL, 10);
}

static void read_settings(void)
{
    first[ALLOCATION] = number_of("REFUSE_ALLOCATION");
    first[THREAD] = number_of("REFUSE_THREAD");
    refuses_rest = number_of("REFUSE_REST") != 0;
    late = number_of("REFUSE_LATE");
    large = number_of("REFUSE_LARGE") != 0 ? number_of("REFUSE_LARGE") : UINT64_MAX;
}

__attribute__((constructor)) static void prepare(void)
{
    const char *path = getenv("REFUSE_COUNTS");
    int file = path == NULL ? -1 : open(path, O_RDWR | O_CLOEXEC);
    void *mapped = file == -1 ? MAP_FAILED : mmap(NULL, sizeof unmapped, PROT_READ | PROT_WRITE, MAP_SHARED, file, 0);
    if (mapped == MAP_FAILED)
        _exit(99);
    close(file);
    counts = mapped;
}

static int (*program_main)(int, char **, char **);

static int counting_main(int count, char **words, char **environment)
{
    for (int kind = ALLOCATION; kind <= THREAD; kind++)
        atomic_store(&counts->kinds[kind].counts, 1);
    return program_main(count, words, environment);
}

typedef int start(int (*)(int, char **, char **), int, char **, void (*)(void), void (*)(void), void (*)(void), void *);

int __libc_start_main(int (*main)(int, char **, char **), int count, char **words, void (*begin)(void), void (*end)(void),
                      void (*end_loader)(void), void *stack)
{
    start *system_start = (start *)dlsym(RTLD_NEXT, "__libc_start_main");
    program_main = main;
    fork_runs(&count, &words);
    read_settings();
    return system_start(counting_main, count, words, begin, end, end_loader, stack);
}
