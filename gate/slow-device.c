/* Preloaded into a program, this has its standard input give few bytes at a read, its standard output take few at a write, and a read or a
 * write of them fail, and counts both.
 *
 * DEVICE_FILE=N has the file of this number in place of standard input. DEVICE_MOST=N has a call move N bytes at most. DEVICE_READ=N has
 * the read of this number, from 0, answer the error DEVICE_ERROR, and DEVICE_WRITE=N the write; `all` has each do so. From the first write
 * of standard error on, in which a program says how it ended, writes are made as they are, and not counted. The file DEVICE_COUNTS gets
 * three numbers of 64 bits: how many reads and writes there were, and how many bytes were written before the last write of no bytes. It is
 * mapped, so it is right however the program ends. */
#define _GNU_SOURCE
#include <dlfcn.h>
#include <errno.h>
#include <fcntl.h>
#include <stdint.h>
#include <stdlib.h>
#include <string.h>
#include <sys/mman.h>
#include <unistd.h>

struct counts {
    uint64_t reads, writes, flushed;
};

enum { NONE, ONE, ALL };

struct rule {
    int which;
    uint64_t number;
};

typedef ssize_t reader(int file, void *bytes, size_t size);
typedef ssize_t writer(int file, const void *bytes, size_t size);

static struct counts *counts;
static struct rule reading, writing;
static uint64_t written;
static int has_said;
static size_t most;
static int error_number, input;
static reader *system_read;
static writer *system_write;

/* What was read ahead of the input, so that a byte takes no call of the system. */
static unsigned char ahead[1 << 21];
static size_t first, end;

static int fails(const struct rule *rule, uint64_t *calls)
{
    uint64_t number = (*calls)++;
    if (rule->which == NONE || (rule->which == ONE && number != rule->number))
        return 0;
    errno = error_number;
    return 1;
}

static size_t least(size_t one, size_t other)
{
    return one < other ? one : other;
}

ssize_t read(int file, void *bytes, size_t size)
{
    if (file != input)
        return system_read(file, bytes, size);
    if (fails(&reading, &counts->reads))
        return -1;
    if (first == end) {
        ssize_t count = system_read(file, ahead, sizeof ahead);
        if (count < 0)
            return -1;
        first = 0;
        end = (size_t)count;
    }
    size_t count = least(end - first, least(size, most));
    memcpy(bytes, ahead + first, count);
    first += count;
    return (ssize_t)count;
}

ssize_t write(int file, const void *bytes, size_t size)
{
    has_said |= file == STDERR_FILENO;
    if (file != STDOUT_FILENO || has_said)
        return system_write(file, bytes, size);
    if (fails(&writing, &counts->writes))
        return -1;
    if (size == 0)
        counts->flushed = written;
    ssize_t count = system_write(file, bytes, least(size, most));
    if (count > 0)
        written += (uint64_t)count;
    return count;
}

static const char *text_of(const char *name)
{
    const char *text = getenv(name);
    return text == NULL ? "" : text;
}

static struct rule rule_of(const char *text)
{
    struct rule rule = {*text == 0 ? NONE : strcmp(text, "all") == 0 ? ALL : ONE, strtoull(text, NULL, 10)};
    return rule;
}

__attribute__((constructor)) static void prepare(void)
{
    int file = open(text_of("DEVICE_COUNTS"), O_RDWR | O_CLOEXEC);
    void *mapped = file == -1 ? MAP_FAILED : mmap(NULL, sizeof *counts, PROT_READ | PROT_WRITE, MAP_SHARED, file, 0);
    if (mapped == MAP_FAILED)
        _exit(99);
    close(file);
    counts = mapped;
    reading = rule_of(text_of("DEVICE_READ"));
    writing = rule_of(text_of("DEVICE_WRITE"));
    most = *text_of("DEVICE_MOST") == 0 ? SIZE_MAX : strtoull(text_of("DEVICE_MOST"), NULL, 10);
    error_number = atoi(text_of("DEVICE_ERROR"));
    input = atoi(text_of("DEVICE_FILE"));
    system_read = (reader *)dlsym(RTLD_NEXT, "read");
    system_write = (writer *)dlsym(RTLD_NEXT, "write");
}
