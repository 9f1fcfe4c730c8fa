/* Three farms in C, for their times alone: serve careful|eight|careless IN OUT THREADS. All rebuild by ISA-L and test each
 * check; digests are OpenSSL's, but for eight.
 *
 * The careful one keeps what ours promises of reading and writing: it reads the survivors of a batch of requests in the
 * lists' order, rebuilds and digests the batch in threads, drops the survivors and goes on; when all fragments and reports
 * are made it writes them in order. So nothing is written where a read fails.
 *
 * The one called eight is the careful one, but makes the digests when all is rebuilt, in threads, eight of one length at once.
 *
 * In the careless one each thread takes the next request, reads, rebuilds, digests and writes it; then the reports are
 * written. A fault in its middle leaves any of the files.
 *
 * They trust their lists, and take every request to have one answer. */
#include "digests.h"
#include "rebuild.h"
#include <fcntl.h>
#include <openssl/evp.h>
#include <pthread.h>
#include <stdatomic.h>
#include <unistd.h>

enum { MOST_RACKS = 16, MOST_REQUESTS = 4096, MOST_THREADS = 64, DIGEST = 32, BATCH = 16 << 20 };

struct request {
    char stripe[33];
    struct repair_asked asked;
    unsigned char digest[DIGEST];
    unsigned char *sources[PLACES + 1], *rebuilt;
};

struct text {
    char *bytes;
    size_t length;
};

static struct request *racks[MOST_RACKS], *in_order[MOST_RACKS * MOST_REQUESTS];
static int counts[MOST_RACKS], rack_count, total, workers, batch_end, by_eight;
static const char *in, *out;
static atomic_int next;

static void *memory_of(size_t length)
{
    void *memory = malloc(length);
    if (memory == NULL)
        stop("no memory");
    return memory;
}

static int open_file(const char *folder, const char *name, int flags)
{
    char path[4096];
    snprintf(path, sizeof path, "%s/%s", folder, name);
    int file = open(path, flags, 0666);
    if (file == -1)
        stop(path);
    return file;
}

static void read_fragment(const struct request *request, int survivor, unsigned char *to)
{
    char name[64];
    snprintf(name, sizeof name, "%s.%s", request->stripe, place_names[request->asked.survivors[survivor]]);
    int file = open_file(in, name, O_RDONLY);
    if (read(file, to, request->asked.length) != request->asked.length)
        stop("a short fragment");
    close(file);
}

static void write_file(const char *name, const void *bytes, size_t length)
{
    int file = open_file(out, name, O_WRONLY | O_CREAT | O_TRUNC);
    if (write(file, bytes, length) != (ssize_t)length || close(file) != 0)
        stop("a failed write");
}

static void write_fragment(int rack, int number, const unsigned char *bytes)
{
    const struct request *request = &racks[rack][number];
    char name[96];
    snprintf(name, sizeof name, "rack%d-%d.%s.%s", rack, number, request->stripe, place_names[request->asked.target]);
    write_file(name, bytes, request->asked.length);
}

static int place_named(const char *name)
{
    int place = place_of(name);
    if (place == -1 || name[2] != 0)
        stop("no place");
    return place;
}

static void read_request(struct request *request, char *line)
{
    struct repair_asked *asked = &request->asked;
    char *at = line, *rest;
    strsep(&at, ",");
    snprintf(request->stripe, sizeof request->stripe, "%s", strsep(&at, ","));
    asked->target = place_named(strsep(&at, ","));
    asked->length = atoi(strsep(&at, ","));
    at[strcspn(at, "\n")] = 0;
    while ((rest = strsep(&at, " ")) != NULL)
        asked->survivors[asked->count++] = place_named(rest);
}

static int read_list(int rack)
{
    char path[4096], line[256];
    snprintf(path, sizeof path, "%s/rack%d.csv", in, rack);
    FILE *list = fopen(path, "r");
    if (list == NULL)
        return 0;
    racks[rack] = calloc(MOST_REQUESTS, sizeof *racks[rack]);
    for (int first = 1; fgets(line, sizeof line, list) != NULL; first = 0)
        if (!first) {
            in_order[total++] = &racks[rack][counts[rack]];
            read_request(&racks[rack][counts[rack]++], line);
        }
    fclose(list);
    return 1;
}

static void digest(struct request *request, const unsigned char *rebuilt)
{
    EVP_Digest(rebuilt, request->asked.length, request->digest, NULL, EVP_sha256(), NULL);
}

/* Rebuilds a request's fragment into `rebuilt`, and digests it, unless that is done later. `checks` is room for the checks. */
static void answer(struct request *request, unsigned char *rebuilt, unsigned char *checks)
{
    unsigned char *sums[CHECK_ROWS + 1] = {rebuilt};
    for (int row = 1; row <= CHECK_ROWS; row++)
        sums[row] = checks + (row - 1) * MOST_LENGTH;
    if (rebuild(&request->asked, request->sources, sums) != REBUILT)
        stop("a request that isn't rebuilt");
    if (!by_eight)
        digest(request, rebuilt);
}

static void in_threads(void *(*work)(void *))
{
    pthread_t threads[MOST_THREADS];
    for (int i = 0; i < workers; i++)
        if (pthread_create(&threads[i], NULL, work, NULL) != 0)
            stop("no thread");
    for (int i = 0; i < workers; i++)
        pthread_join(threads[i], NULL);
}

/* ---- careless */

static void *serve_requests(void *unused)
{
    unsigned char *memory = aligned_alloc(64, (PLACES + CHECK_ROWS + 1) * MOST_LENGTH);
    unsigned char *sums = memory + PLACES * MOST_LENGTH;
    for (int taken; (taken = atomic_fetch_add(&next, 1)) < total;) {
        struct request *request = in_order[taken];
        int rack = 0;
        for (; taken >= counts[rack]; rack++)
            taken -= counts[rack];
        for (int s = 0; s < request->asked.count; s++) {
            request->sources[s] = memory + s * MOST_LENGTH;
            read_fragment(request, s, request->sources[s]);
        }
        answer(request, sums, sums + MOST_LENGTH);
        write_fragment(rack, taken, sums);
    }
    free(memory);
    return unused;
}

/* ---- careful */

static size_t listed_bytes(const struct request *request)
{
    return (size_t)request->asked.count * request->asked.length;
}

/* The end of the batch that begins here: about so many listed bytes, and at least one request. */
static int end_of_batch(int first)
{
    size_t bytes = listed_bytes(in_order[first]);
    int end = first + 1;
    while (end < total && bytes + listed_bytes(in_order[end]) <= BATCH)
        bytes += listed_bytes(in_order[end++]);
    return end;
}

/* Reads a batch's survivors into memory that each batch uses again, and takes the memory of what is rebuilt. */
static void read_batch(int first, unsigned char *memory)
{
    for (int i = first; i < batch_end; i++) {
        struct request *request = in_order[i];
        request->rebuilt = memory_of(request->asked.length);
        for (int s = 0; s < request->asked.count; s++) {
            read_fragment(request, s, memory);
            request->sources[s] = memory;
            memory += request->asked.length;
        }
    }
}

static void *answer_batch(void *unused)
{
    unsigned char *checks = aligned_alloc(64, CHECK_ROWS * MOST_LENGTH);
    for (int taken; (taken = atomic_fetch_add(&next, 1)) < batch_end;)
        answer(in_order[taken], in_order[taken]->rebuilt, checks);
    free(checks);
    return unused;
}

static void answer_in_batches(void)
{
    unsigned char *memory = aligned_alloc(64, BATCH + PLACES * MOST_LENGTH);
    for (int first = 0; first < total; first = batch_end) {
        batch_end = end_of_batch(first);
        read_batch(first, memory);
        atomic_store(&next, first);
        in_threads(answer_batch);
    }
    free(memory);
}

/* Digests the next eight requests, and so on: at once where their lengths are equal. */
static void *digest_by_eight(void *unused)
{
    for (int first; (first = atomic_fetch_add(&next, LANES)) < total;) {
        const unsigned char *messages[LANES];
        unsigned char digests[LANES][DIGEST];
        int count = total - first < LANES ? total - first : LANES, alike = count == LANES;
        for (int i = 0; i < count; i++) {
            messages[i] = in_order[first + i]->rebuilt;
            alike &= in_order[first + i]->asked.length == in_order[first]->asked.length;
        }
        if (alike)
            digest_eight(messages, in_order[first]->asked.length, digests);
        for (int i = 0; i < count; i++)
            if (alike)
                memcpy(in_order[first + i]->digest, digests[i], DIGEST);
            else
                digest(in_order[first + i], messages[i]);
    }
    return unused;
}

/* ---- reports */

static struct text report_of(int rack)
{
    struct text text;
    FILE *report = open_memstream(&text.bytes, &text.length);
    fputs("number,stripe,target,length,outcome,digest,unread\n", report);
    for (int number = 0; number < counts[rack]; number++) {
        const struct request *request = &racks[rack][number];
        fprintf(report, "%d,%s,%s,%d,rebuilt,", number, request->stripe, place_names[request->asked.target], request->asked.length);
        for (int i = 0; i < DIGEST; i++)
            fprintf(report, "%02x", request->digest[i]);
        fputs(",\n", report);
    }
    if (fclose(report) != 0)
        stop("no memory for a report");
    return text;
}

static void write_report(int rack, struct text text)
{
    char name[32];
    snprintf(name, sizeof name, "rack%d.report.csv", rack);
    write_file(name, text.bytes, text.length);
    free(text.bytes);
}

static void write_all(void)
{
    struct text reports[MOST_RACKS];
    for (int rack = 0; rack < rack_count; rack++)
        reports[rack] = report_of(rack);
    for (int rack = 0; rack < rack_count; rack++) {
        for (int number = 0; number < counts[rack]; number++)
            if (racks[rack][number].rebuilt != NULL)
                write_fragment(rack, number, racks[rack][number].rebuilt);
        write_report(rack, reports[rack]);
    }
}

int main(int count, char **words)
{
    workers = count == 5 ? atoi(words[4]) : 0;
    by_eight = count == 5 && strcmp(words[1], "eight") == 0;
    int careful = count == 5 && (by_eight || strcmp(words[1], "careful") == 0);
    if (workers < 1 || workers > MOST_THREADS || (!careful && strcmp(words[1], "careless") != 0))
        stop("serve careful|eight|careless IN OUT THREADS");
    in = words[2];
    out = words[3];
    make_inverses();
    while (rack_count < MOST_RACKS && read_list(rack_count))
        rack_count++;
    if (careful)
        answer_in_batches();
    else
        in_threads(serve_requests);
    atomic_store(&next, 0);
    if (by_eight)
        in_threads(digest_by_eight);
    write_all();
    printf("served %d racks, %d answers\n", rack_count, total);
    return 0;
}
