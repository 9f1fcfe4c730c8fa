/* Writes the folder that the served farms are timed on: FOLDER RACKS REQUESTS LENGTH FEEDS. Each rack has its own stripes, and the
 * requests of each of its feeds go round them and round four repairs, two in a group and two over both. */
#include "stripe.h"
#include "places.h"

enum { STRIPES = 25, REPAIRS = 4 };

static const struct {
    const char *target, *survivors;
} asked[REPAIRS] = {
    {"x0", "x1 x2 px"},
    {"x0", "x2 y2 px py p0 p1"},
    {"y1", "y0 y2 py"},
    {"x1", "x0 x2 y0 y1 y2 py p0 p1"},
};

static FILE *opened(const char *folder, const char *name)
{
    char path[4096];
    if (snprintf(path, sizeof path, "%s/%s", folder, name) >= (int)sizeof path)
        stop("a path too long");
    FILE *file = fopen(path, "wb");
    if (file == NULL)
        stop("a file that can't be made");
    return file;
}

static void close_file(FILE *file)
{
    if (fclose(file) != 0)
        stop("a file that can't be written");
}

static void write_stripe(const char *folder, int rack, int stripe, int length)
{
    char name[64];
    fill_stripe(rack * STRIPES + stripe + 1);
    for (int place = 0; place < PLACES; place++) {
        snprintf(name, sizeof name, "r%d-%d.%s", rack, stripe, place_names[place]);
        FILE *file = opened(folder, name);
        if (fwrite(fragments[place], 1, length, file) != (size_t)length)
            stop("a fragment that can't be written");
        close_file(file);
    }
}

static void write_list(const char *folder, int rack, int feed, int requests, int length)
{
    char name[64];
    snprintf(name, sizeof name, feed == 0 ? "rack%d.csv" : "rack%d.feed%d.csv", rack, feed);
    FILE *file = opened(folder, name);
    fputs("order,stripe,target,length,survivors\n", file);
    for (int number = 0; number < requests; number++)
        fprintf(file, "rebuild,r%d-%d,%s,%d,%s\n", rack, number % STRIPES, asked[number % REPAIRS].target, length,
                asked[number % REPAIRS].survivors);
    close_file(file);
}

int main(int count, char **words)
{
    if (count != 6)
        stop("folder FOLDER RACKS REQUESTS LENGTH FEEDS");
    int length = atoi(words[4]);
    if (length < 1 || length > MOST_LENGTH)
        stop("a length of 1 to 65536");
    make_stripe();
    for (int rack = 0; rack < atoi(words[2]); rack++) {
        for (int stripe = 0; stripe < STRIPES; stripe++)
            write_stripe(words[1], rack, stripe, length);
        for (int feed = 0; feed < atoi(words[5]); feed++)
            write_list(words[1], rack, feed, atoi(words[3]), length);
    }
    return 0;
}
