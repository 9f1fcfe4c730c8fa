/* Preloaded into a program, this has one of its calls of the file system fail, or ends the program just before it, and counts them.
 *
 * FAIL_NUMBER=N is the Nth such call, from 1, and FAIL_HOW what becomes of it: the number of an error that it answers; `kill`, which ends
 * the program by SIGKILL; `short`, so that a read or a write takes half of its bytes; or `meanwhile`, so that a file of one byte, which
 * another program might have made, is under the name that a link is about to give. With `unsynced` no sync is made, and each answers that
 * it was; with `wait` the program makes the file FAIL_REACHED and goes on when FAIL_UNTIL is there, so that others come between. With
 * `slow` each read takes FAIL_NUMBER milliseconds more, as one from a slow disk, and no call fails.
 * Two calls fail by FAIL_NUMBER=N,M and FAIL_HOW=E,F, each with an error of its own: the Nth answers E, and the Mth, a later one, F.
 * FAIL_REST=kind has all later calls of its kind answer that error too, and FAIL_REST=path those of them at its path. With FAIL_BUT no call
 * is counted whose path begins so, and no thread can be had, so that the same calls have the same numbers in each run; calls that read a
 * link or remove a folder are counted then too. With FAIL_MOUNTS the table of mounts is the file of that path. Counting begins with
 * `main`. The file FAIL_RECORD gets what `struct record` has; it is mapped, so it is right however the program ends. Many runs may share a
 * start: fork-runs.h. */
#define _GNU_SOURCE
#include <dirent.h>
#include <dlfcn.h>
#include <errno.h>
#include <fcntl.h>
#include <pthread.h>
#include <signal.h>
#include <stdarg.h>
#include <stdatomic.h>
#include <stdint.h>
#include <stdio.h>
#include <stdlib.h>
#include <string.h>
#include <sys/file.h>
#include <sys/mman.h>
#include <sys/stat.h>
#include <sys/uio.h>
#include <unistd.h>

#include "fork-runs.h"

enum { MOST_CALLS = 4096, MOST_KIND = 8, MOST_PATH = 4096 };

struct record {
    _Atomic uint64_t counts, calls, failed;
    /* The kind of each call, of the first ones. */
    char kinds[MOST_CALLS][MOST_KIND];
    /* The path that the call that failed was given, or at which its file was opened; of two paths both, with a line's end between. */
    char path[MOST_PATH];
    /* The same of the second one, where two are to fail. */
    char second_path[MOST_PATH];
};

enum how { ERROR, KILL, SHORT, MEANWHILE, UNSYNCED, WAIT, SLOW };

static struct record unmapped;
static struct record *record = &unmapped;
static uint64_t number, second_number;
static enum how how;
static int error_number, second_error;
static enum { NONE, ALL_OF_KIND, ALL_AT_PATH } fails_later;
static const char *left_out = "", *mounts = "";

/* The system's function of this name, which is looked up once in each place that calls it. */
#define SYSTEM(name)                                \
    ({                                              \
        static typeof(name) *found;                 \
        if (found == NULL)                          \
            found = (typeof(name) *)next(#name);    \
        found;                                      \
    })

static void *next(const char *name)
{
    return dlsym(RTLD_NEXT, name);
}

/* Says that the call is reached, and waits until it may be made, for a minute at most. */
static void wait_for_others(void)
{
    int reached = SYSTEM(open)(getenv("FAIL_REACHED"), O_CREAT | O_WRONLY | O_CLOEXEC, 0600);
    if (reached >= 0)
        close(reached);
    for (int turn = 0; turn < 6000 && access(getenv("FAIL_UNTIL"), F_OK) != 0; turn++)
        usleep(10000);
}

/* The path at which a file was opened. */
static const char *path_of(int file, char *room, size_t size)
{
    char link[64];
    snprintf(link, sizeof link, "/proc/self/fd/%d", file);
    ssize_t length = SYSTEM(readlink)(link, room, size - 1);
    room[length < 0 ? 0 : length] = 0;
    return room;
}

/* A call that may fail: the path that it was given, of two both, or else the file that it was given. */
struct call {
    const char *kind, *path, *other;
    int file, is_second;
};

/* Notes the path of a call that fails. */
static void note_failed(char *to, const char *path, const struct call *call)
{
    snprintf(to, MOST_PATH, "%s%s%s", path, call->other == NULL ? "" : "\n", call->other == NULL ? "" : call->other);
    atomic_fetch_add(&record->failed, 1);
}

/* Whether the call of this number, one that is to fail or a later one, fails. A killed program ends here. */
static int is_met(uint64_t own, const struct call *call)
{
    char room[MOST_PATH - 1];
    const char *path = call->path == NULL ? path_of(call->file, room, sizeof room) : call->path;
    if (own == second_number) {
        note_failed(record->second_path, path, call);
        return 1;
    }
    if (own > number)
        return number <= MOST_CALLS && strncmp(call->kind, record->kinds[number - 1], MOST_KIND) == 0 &&
               (fails_later == ALL_OF_KIND || strcmp(path, record->path) == 0);
    note_failed(record->path, path, call);
    if (how == KILL) {
        kill(getpid(), SIGKILL);
        pause();
    }
    if (how == WAIT)
        wait_for_others();
    return 1;
}

/* Whether a call isn't counted. */
static int is_left_out(const struct call *call)
{
    char room[MOST_PATH - 1];
    if (*left_out == 0)
        return 0;
    const char *path = call->path == NULL ? path_of(call->file, room, sizeof room) : call->path;
    return strncmp(path, left_out, strlen(left_out)) == 0 || (*mounts && strcmp(path, mounts) == 0);
}

/* The error that a call answers which fails. */
static int error_now(const struct call *call)
{
    return call->is_second ? second_error : error_number;
}

/* Whether a call is one that is to fail, or a later one of its kind where those fail too: of these alone files' paths are looked up. */
static int is_chosen(struct call *call)
{
    if (atomic_load(&record->counts) == 0)
        return 0;
    if (how == SLOW) {
        if (strcmp(call->kind, "read") == 0)
            usleep((useconds_t)(number * 1000));
        return 0;
    }
    if (is_left_out(call))
        return 0;
    uint64_t own = atomic_fetch_add(&record->calls, 1) + 1;
    if (own <= MOST_CALLS)
        memcpy(record->kinds[own - 1], call->kind, strnlen(call->kind, MOST_KIND));
    call->is_second = second_number != 0 && own == second_number;
    if (number == 0 || own < number || (own > number && fails_later == NONE && !call->is_second))
        return 0;
    return is_met(own, call);
}

static int fails_call(struct call *call)
{
    if (!is_chosen(call) || how != ERROR)
        return 0;
    errno = error_now(call);
    return 1;
}

static int fails(const char *kind, const char *path, const char *other)
{
    return fails_call(&(struct call){.kind = kind, .path = path, .other = other});
}

static int fails_at(const char *kind, int file)
{
    return fails_call(&(struct call){.kind = kind, .file = file});
}

/* How many of a call's bytes are to be taken, or none where it fails. */
static ssize_t taken(const char *kind, int file, size_t size)
{
    struct call call = {.kind = kind, .file = file};
    if (!is_chosen(&call))
        return (ssize_t)size;
    if (how == SHORT)
        return (ssize_t)(size > 1 ? size / 2 : size);
    if (how != ERROR)
        return (ssize_t)size;
    errno = error_now(&call);
    return -1;
}

static const char *kind_of_write(int file)
{
    return file <= 2 ? "output" : "write";
}

static int opened(const char *kind, int folder, const char *path, int flags, mode_t mode)
{
    if (fails(kind, path, NULL))
        return -1;
    return SYSTEM(openat)(folder, *mounts && strcmp(path, "/proc/self/mountinfo") == 0 ? mounts : path, flags, mode);
}

static const char *kind_of_open(int flags)
{
    return flags & O_CREAT ? "create" : "open";
}

static mode_t mode_of(int flags, va_list rest)
{
    return flags & O_CREAT ? va_arg(rest, mode_t) : 0;
}

int open(const char *path, int flags, ...)
{
    va_list rest;
    va_start(rest, flags);
    mode_t mode = mode_of(flags, rest);
    va_end(rest);
    return opened(kind_of_open(flags), AT_FDCWD, path, flags, mode);
}

int openat(int folder, const char *path, int flags, ...)
{
    va_list rest;
    va_start(rest, flags);
    mode_t mode = mode_of(flags, rest);
    va_end(rest);
    return opened(kind_of_open(flags), folder, path, flags, mode);
}

ssize_t read(int file, void *bytes, size_t size)
{
    ssize_t count = taken("read", file, size);
    return count < 0 ? -1 : SYSTEM(read)(file, bytes, (size_t)count);
}

ssize_t pread(int file, void *bytes, size_t size, off_t from)
{
    ssize_t count = taken("read", file, size);
    return count < 0 ? -1 : SYSTEM(pread)(file, bytes, (size_t)count, from);
}

ssize_t write(int file, const void *bytes, size_t size)
{
    ssize_t count = taken(kind_of_write(file), file, size);
    return count < 0 ? -1 : SYSTEM(write)(file, bytes, (size_t)count);
}

ssize_t pwrite(int file, const void *bytes, size_t size, off_t from)
{
    ssize_t count = taken("write", file, size);
    return count < 0 ? -1 : SYSTEM(pwrite)(file, bytes, (size_t)count, from);
}

ssize_t writev(int file, const struct iovec *parts, int count)
{
    return fails_at(kind_of_write(file), file) ? -1 : SYSTEM(writev)(file, parts, count);
}

ssize_t getdents64(int folder, void *bytes, size_t size)
{
    return fails_at("list", folder) ? -1 : SYSTEM(getdents64)(folder, bytes, size);
}

int statx(int folder, const char *path, int flags, unsigned mask, struct statx *about)
{
    int is_failing = *path ? fails("look", path, NULL) : fails_at("look", folder);
    return is_failing ? -1 : SYSTEM(statx)(folder, path, flags, mask, about);
}

int flock(int file, int operation)
{
    return fails_at("lock", file) ? -1 : SYSTEM(flock)(file, operation);
}

int fsync(int file)
{
    if (fails_at("sync", file))
        return -1;
    return how == UNSYNCED ? 0 : SYSTEM(fsync)(file);
}

int fdatasync(int file)
{
    if (fails_at("sync", file))
        return -1;
    return how == UNSYNCED ? 0 : SYSTEM(fdatasync)(file);
}

int ftruncate(int file, off_t size)
{
    return fails_at("truncate", file) ? -1 : SYSTEM(ftruncate)(file, size);
}

int fchown(int file, uid_t owner, gid_t group)
{
    return fails_at("chown", file) ? -1 : SYSTEM(fchown)(file, owner, group);
}

int fchmod(int file, mode_t mode)
{
    return fails_at("chmod", file) ? -1 : SYSTEM(fchmod)(file, mode);
}

int link(const char *from, const char *to)
{
    if (fails("link", from, to))
        return -1;
    if (how == MEANWHILE && atomic_load(&record->failed) == 1 && atomic_load(&record->calls) == number) {
        int file = SYSTEM(openat)(AT_FDCWD, to, O_WRONLY | O_CREAT | O_EXCL, 0644);
        if (file >= 0) {
            SYSTEM(write)(file, "m", 1);
            close(file);
        }
    }
    return SYSTEM(link)(from, to);
}

int rename(const char *from, const char *to)
{
    return fails("rename", from, to) ? -1 : SYSTEM(rename)(from, to);
}

int unlink(const char *path)
{
    return fails("unlink", path, NULL) ? -1 : SYSTEM(unlink)(path);
}

int unlinkat(int folder, const char *path, int flags)
{
    return fails("unlink", path, NULL) ? -1 : SYSTEM(unlinkat)(folder, path, flags);
}

int rmdir(const char *path)
{
    return *left_out && fails("rmdir", path, NULL) ? -1 : SYSTEM(rmdir)(path);
}

ssize_t readlink(const char *path, char *to, size_t size)
{
    return *left_out && fails("readlink", path, NULL) ? -1 : SYSTEM(readlink)(path, to, size);
}

int mkdir(const char *path, mode_t mode)
{
    return fails("mkdir", path, NULL) ? -1 : SYSTEM(mkdir)(path, mode);
}

int symlink(const char *to, const char *path)
{
    return fails("symlink", path, NULL) ? -1 : SYSTEM(symlink)(to, path);
}

int pthread_create(pthread_t *thread, const pthread_attr_t *about, void *(*body)(void *), void *with)
{
    return *left_out == 0 ? SYSTEM(pthread_create)(thread, about, body, with) : EAGAIN;
}

static const char *text_of(const char *name)
{
    const char *text = getenv(name);
    return text == NULL ? "" : text;
}

static void read_how(const char *text)
{
    static const char *const ways[] = {[KILL] = "kill", [SHORT] = "short", [MEANWHILE] = "meanwhile",
                                       [UNSYNCED] = "unsynced", [WAIT] = "wait", [SLOW] = "slow"};
    how = ERROR;
    for (enum how way = KILL; way <= SLOW; way++)
        if (strcmp(text, ways[way]) == 0)
            how = way;
    error_number = atoi(text);
    const char *second = strchr(text, ',');
    second_error = second == NULL ? error_number : atoi(second + 1);
}

static void read_settings(void)
{
    char *rest_of_numbers;
    number = strtoull(text_of("FAIL_NUMBER"), &rest_of_numbers, 10);
    second_number = *rest_of_numbers == ',' ? strtoull(rest_of_numbers + 1, NULL, 10) : 0;
    const char *rest = text_of("FAIL_REST");
    fails_later = strcmp(rest, "kind") == 0 ? ALL_OF_KIND : strcmp(rest, "path") == 0 ? ALL_AT_PATH : NONE;
    left_out = text_of("FAIL_BUT");
    mounts = text_of("FAIL_MOUNTS");
    read_how(text_of("FAIL_HOW"));
}

__attribute__((constructor)) static void prepare(void)
{
    int file = SYSTEM(openat)(AT_FDCWD, text_of("FAIL_RECORD"), O_RDWR | O_CLOEXEC);
    void *mapped = file == -1 ? MAP_FAILED : mmap(NULL, sizeof unmapped, PROT_READ | PROT_WRITE, MAP_SHARED, file, 0);
    if (mapped == MAP_FAILED)
        _exit(99);
    close(file);
    record = mapped;
}

static int (*program_main)(int, char **, char **);

static int counting_main(int count, char **words, char **environment)
{
    atomic_store(&record->counts, 1);
    return program_main(count, words, environment);
}

typedef int start(int (*)(int, char **, char **), int, char **, void (*)(void), void (*)(void), void (*)(void), void *);

int __libc_start_main(int (*main)(int, char **, char **), int count, char **words, void (*begin)(void), void (*end)(void),
                      void (*end_loader)(void), void *stack)
{
    start *system_start = (start *)next("__libc_start_main");
    program_main = main;
    fork_runs(&count, &words);
    read_settings();
    return system_start(counting_main, count, words, begin, end, end_loader, stack);
}
