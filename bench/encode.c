/* The peer of rebuild-store's commands for files: ISA-L over mapped files, and OpenSSL's digests, without a temporary name or a sync.
 *
 *     encode write FILE FOLDER        a file's fragments of the (6,2,2) code, in files file.<place>, and the digests of all: the file's in
 *                                     a thread of its own, the fragments' in three
 *     encode read FOLDER LENGTH OUT   the file from its data fragments, in OUT, and its digest */
#include <fcntl.h>
#include <isa-l.h>
#include <openssl/sha.h>
#include <pthread.h>
#include <stdint.h>
#include <stdio.h>
#include <stdlib.h>
#include <string.h>
#include <sys/mman.h>
#include <sys/stat.h>
#include <unistd.h>

enum { PLACES = 10, DATA = 6, PARITIES = PLACES - DATA, PIECE = 65536, THREADS = 3 };

static const char *const places[PLACES] = {"x0", "x1", "x2", "y0", "y1", "y2", "px", "py", "p0", "p1"};

static unsigned char coefficients[PARITIES * DATA] = {
    0x01, 0x01, 0x01, 0x00, 0x00, 0x00, /* px */
    0x00, 0x00, 0x00, 0x01, 0x01, 0x01, /* py */
    0x04, 0x08, 0x0c, 0x01, 0x02, 0x03, /* p0 */
    0x10, 0x40, 0x50, 0x01, 0x04, 0x05, /* p1 */
};

struct bytes {
    unsigned char *at;
    size_t length;
};

static struct bytes whole, fragments[PLACES];
static unsigned char digests[PLACES + 1][SHA256_DIGEST_LENGTH];

static void stop(const char *why)
{
    perror(why);
    exit(1);
}

static struct bytes mapped(const char *path, size_t length, int is_new)
{
    struct stat about;
    struct bytes bytes;
    int file = open(path, is_new ? O_RDWR | O_CREAT | O_TRUNC : O_RDONLY, 0644);
    if (file == -1 || (is_new && ftruncate(file, (off_t)length) != 0) || fstat(file, &about) != 0)
        stop(path);
    bytes.length = (size_t)about.st_size;
    bytes.at = mmap(NULL, bytes.length, is_new ? PROT_READ | PROT_WRITE : PROT_READ, MAP_SHARED, file, 0);
    if (bytes.at == MAP_FAILED)
        stop(path);
    close(file);
    return bytes;
}

static struct bytes fragment(const char *folder, int place, size_t length, int is_new)
{
    char path[4096];
    snprintf(path, sizeof path, "%s/file.%s", folder, places[place]);
    return mapped(path, length, is_new);
}

static void *digest_whole(void *unused)
{
    SHA256(whole.at, whole.length, digests[PLACES]);
    return unused;
}

static void *digest_fragments(void *first)
{
    for (int place = (int)(intptr_t)first; place < PLACES; place += THREADS)
        SHA256(fragments[place].at, fragments[place].length, digests[place]);
    return NULL;
}

/* The parts of the file, 00 after its end, and the parities, a piece of each at a time. */
static void encode(size_t length)
{
    unsigned char tables[32 * DATA * PARITIES], *sources[DATA], *sums[PARITIES];
    ec_init_tables(DATA, PARITIES, coefficients, tables);
    for (size_t from = 0; from < length; from += PIECE) {
        size_t size = length - from < PIECE ? length - from : PIECE;
        for (int part = 0; part < DATA; part++) {
            size_t at = (size_t)part * length + from;
            size_t left = at < whole.length ? whole.length - at : 0;
            sources[part] = fragments[part].at + from;
            memcpy(sources[part], whole.at + at, left < size ? left : size);
        }
        for (int parity = 0; parity < PARITIES; parity++)
            sums[parity] = fragments[DATA + parity].at + from;
        ec_encode_data((int)size, DATA, PARITIES, tables, sources, sums);
    }
}

static void write_fragments(const char *path, const char *folder)
{
    pthread_t one, three[THREADS];
    whole = mapped(path, 0, 0);
    if (pthread_create(&one, NULL, digest_whole, NULL) != 0)
        stop("a thread");
    size_t length = (whole.length + DATA - 1) / DATA;
    for (int place = 0; place < PLACES; place++)
        fragments[place] = fragment(folder, place, length, 1);
    encode(length);
    for (intptr_t i = 0; i < THREADS; i++)
        if (pthread_create(&three[i], NULL, digest_fragments, (void *)i) != 0)
            stop("a thread");
    for (int i = 0; i < THREADS; i++)
        pthread_join(three[i], NULL);
    pthread_join(one, NULL);
}

static void read_file(const char *folder, size_t length, const char *path)
{
    whole = mapped(path, length, 1);
    for (int part = 0; part < DATA; part++) {
        struct bytes bytes = fragment(folder, part, 0, 0);
        size_t at = (size_t)part * bytes.length;
        size_t left = at < length ? length - at : 0;
        memcpy(whole.at + at, bytes.at, left < bytes.length ? left : bytes.length);
    }
    digest_whole(NULL);
}

int main(int count, char **words)
{
    if (count == 4 && strcmp(words[1], "write") == 0)
        write_fragments(words[2], words[3]);
    else if (count == 5 && strcmp(words[1], "read") == 0)
        read_file(words[2], strtoull(words[3], NULL, 10), words[4]);
    else
        return 2;
    for (int i = 0; i < SHA256_DIGEST_LENGTH; i++)
        printf("%02x", digests[PLACES][i]);
    return 0;
}
