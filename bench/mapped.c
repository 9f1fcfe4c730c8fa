/* The peer of rebuild-store: repairs a store in a folder over the C library and mapped files, without a temporary name, a sync or a digest;
 * and makes the stores that both are timed on.
 *
 *     mapped make FOLDER STRIPES LENGTH       stripes of the (6,2,2) code, each with its own bytes, in files <stripe>.<place>
 *     mapped repair FOLDER WORKERS            rebuilds each fragment that has no file; a stripe at a time in each thread */
#include <dirent.h>
#include <fcntl.h>
#include <lrc.h>
#include <pthread.h>
#include <stdatomic.h>
#include <stdio.h>
#include <stdlib.h>
#include <string.h>
#include <sys/mman.h>
#include <sys/stat.h>
#include <unistd.h>

/* The bytes of each fragment that are worked on at once. Of 64 KiB to all this was fastest. */
enum { PIECE = 1048576, MOST_NAME = 128 };

static char (*names)[MOST_NAME];
static size_t count;
static const char *folder;
static atomic_size_t next;

static void stop(const char *why)
{
    perror(why);
    exit(1);
}

static void path_to(char path[4096], const char *stripe, enum lrc_place place)
{
    snprintf(path, 4096, "%s/%s.%s", folder, stripe, lrc_place_name(place));
}

static uint8_t *new_file(const char *path, size_t length)
{
    int file = open(path, O_RDWR | O_CREAT | O_EXCL, 0644);
    if (file == -1 || ftruncate(file, (off_t)length) != 0)
        stop(path);
    uint8_t *bytes = mmap(NULL, length, PROT_READ | PROT_WRITE, MAP_SHARED, file, 0);
    if (bytes == MAP_FAILED)
        stop(path);
    close(file);
    return bytes;
}

static const uint8_t *old_file(const char *path, size_t *length)
{
    struct stat about;
    int file = open(path, O_RDONLY);
    if (file == -1)
        return NULL;
    if (fstat(file, &about) != 0)
        stop(path);
    *length = (size_t)about.st_size;
    const uint8_t *bytes = mmap(NULL, *length, PROT_READ, MAP_SHARED, file, 0);
    if (bytes == MAP_FAILED)
        stop(path);
    close(file);
    return bytes;
}

static void repair(const char *stripe)
{
    const uint8_t *left[LRC_PLACES] = {0}, *piece[LRC_PLACES] = {0};
    enum lrc_place lost[LRC_PLACES];
    uint8_t *made[LRC_PLACES], *out[LRC_PLACES];
    uint32_t statuses[LRC_PLACES];
    size_t targets = 0, length = 0;
    char path[4096];
    for (enum lrc_place place = 0; lrc_has_place(LRC_6_2_2, place); place++) {
        path_to(path, stripe, place);
        left[place] = old_file(path, &length);
        if (left[place] == NULL)
            lost[targets++] = place;
    }
    if (targets == 0)
        return;
    for (size_t i = 0; i < targets; i++) {
        path_to(path, stripe, lost[i]);
        made[i] = new_file(path, length);
    }
    for (size_t from = 0; from < length; from += PIECE) {
        size_t size = length - from < PIECE ? length - from : PIECE;
        for (int place = 0; place < LRC_PLACES; place++)
            piece[place] = left[place] == NULL ? NULL : left[place] + from;
        for (size_t i = 0; i < targets; i++)
            out[i] = made[i] + from;
        if (lrc_rebuild_many(LRC_6_2_2, piece, lost, out, statuses, targets, size) != LRC_OK)
            stop(stripe);
    }
    for (size_t i = 0; i < targets; i++)
        munmap(made[i], length);
    for (int place = 0; place < LRC_PLACES; place++)
        if (left[place] != NULL)
            munmap((void *)left[place], length);
}

static void *work(void *unused)
{
    for (size_t own; (own = atomic_fetch_add(&next, 1)) < count;)
        repair(names[own]);
    return unused;
}

/* The names of the stripes, each once. */
static void list(void)
{
    size_t room = 0;
    DIR *opened = opendir(folder);
    if (opened == NULL)
        stop(folder);
    for (struct dirent *entry; (entry = readdir(opened)) != NULL;) {
        char *point = strrchr(entry->d_name, '.');
        if (point == NULL || lrc_place_named(point + 1) == LRC_PLACES || point - entry->d_name >= MOST_NAME)
            continue;
        if (count == room && (names = realloc(names, (room = 2 * room + 1024) * sizeof *names)) == NULL)
            stop("names");
        snprintf(names[count++], MOST_NAME, "%.*s", (int)(point - entry->d_name), entry->d_name);
    }
    closedir(opened);
    qsort(names, count, sizeof *names, (int (*)(const void *, const void *))strcmp);
    size_t kept = 0;
    for (size_t i = 0; i < count; i++)
        if (kept == 0 || strcmp(names[kept - 1], names[i]) != 0)
            memmove(names[kept++], names[i], sizeof *names);
    count = kept;
}

static void make(size_t stripes, size_t length)
{
    uint64_t state = 88172645463325252u;
    for (size_t stripe = 0; stripe < stripes; stripe++) {
        uint8_t *bytes[LRC_PLACES] = {0};
        char name[32], path[4096];
        snprintf(name, sizeof name, "s%06zu", stripe);
        for (enum lrc_place place = 0; lrc_has_place(LRC_6_2_2, place); place++) {
            path_to(path, name, place);
            bytes[place] = new_file(path, length);
            for (size_t i = 0; place < LRC_PX && i < length; i++) {
                state ^= state << 13;
                state ^= state >> 7;
                state ^= state << 17;
                bytes[place][i] = (uint8_t)(state >> 32);
            }
        }
        if (lrc_encode(LRC_6_2_2, bytes, length) != LRC_OK)
            stop("encode");
        for (int place = 0; place < LRC_PLACES; place++)
            if (bytes[place] != NULL)
                munmap(bytes[place], length);
    }
}

int main(int words, char **word)
{
    pthread_t threads[64];
    if (words < 4)
        return 2;
    folder = word[2];
    size_t number = (size_t)atol(word[3]);
    if (words == 5 && strcmp(word[1], "make") == 0) {
        make(number, (size_t)atol(word[4]));
        return 0;
    }
    if (words != 4 || strcmp(word[1], "repair") != 0 || number < 1 || number > 64)
        return 2;
    list();
    for (size_t i = 1; i < number; i++)
        if (pthread_create(&threads[i], NULL, work, NULL) != 0)
            stop("thread");
    work(NULL);
    for (size_t i = 1; i < number; i++)
        pthread_join(threads[i], NULL);
    return 0;
}
