/* Line mode in C, for its time alone: lines < INPUT > OUTPUT. It reads all its input, rebuilds by ISA-L, and writes the
 * replies when all are made. It tests each line's form, knows the (6,2,2) code alone, and stops at a request that is refused
 * for anything but its form. `lines N` writes an input in place of that: as many lines as fit line mode's limit, with
 * fragments of N bytes and the repairs of the served farms in turn. */
#include "rebuild.h"

enum { MOST_INPUT = 8388608, NO_DIGIT = 0xff };

static unsigned char digit_values[256];

static void *memory_of(size_t length)
{
    void *memory = aligned_alloc(64, (length + 63) / 64 * 64);
    if (memory == NULL)
        stop("no memory");
    return memory;
}

static void make_digits(void)
{
    memset(digit_values, NO_DIGIT, sizeof digit_values);
    for (int v = 0; v < 16; v++) {
        digit_values[(unsigned char)"0123456789ABCDEF"[v]] = v;
        digit_values[(unsigned char)"0123456789abcdef"[v]] = v;
    }
}

/* Decodes so many bytes. Gives 0 where a digit is bad. */
static int decode(unsigned char *bytes, const unsigned char *digits, size_t count)
{
    unsigned char bad = 0;
    for (size_t i = 0; i < count; i++) {
        unsigned char high = digit_values[digits[2 * i]], low = digit_values[digits[2 * i + 1]];
        bad |= high | low;
        bytes[i] = high << 4 | (low & 15);
    }
    return bad < 16;
}

static void encode(unsigned char *digits, const unsigned char *bytes, size_t count)
{
    for (size_t i = 0; i < count; i++) {
        digits[2 * i] = "0123456789ABCDEF"[bytes[i] >> 4];
        digits[2 * i + 1] = "0123456789ABCDEF"[bytes[i] & 15];
    }
}

/* ---- one line */

struct word {
    const unsigned char *at;
    size_t length;
};

/* The next word, or one of no length. */
static struct word next_word(const unsigned char **at, const unsigned char *end)
{
    while (*at < end && **at == ' ')
        (*at)++;
    struct word word = {*at, 0};
    const unsigned char *space = memchr(*at, ' ', end - *at);
    *at = space == NULL ? end : space;
    word.length = *at - word.at;
    return word;
}

static int is_printable(const unsigned char *at, const unsigned char *end)
{
    unsigned char least = 0x20, most = 0x7e;
    for (; at < end; at++) {
        least = *at < least ? *at : least;
        most = *at > most ? *at : most;
    }
    return least == 0x20 && most == 0x7e;
}

/* A number without needless zeros, or -1. */
static int number_of(struct word word)
{
    int number = 0;
    if (word.length == 0 || word.length > 9 || (word.length > 1 && word.at[0] == '0'))
        return -1;
    for (size_t i = 0; i < word.length; i++) {
        if (word.at[i] < '0' || word.at[i] > '9')
            return -1;
        number = number * 10 + word.at[i] - '0';
    }
    return number;
}

/* The survivor that a word writes is decoded to `to`. Gives its place, or -1 where the word doesn't write one. */
static int read_survivor(struct word word, int length, unsigned char *to)
{
    int place = word.length < 3 || word.at[2] != '=' ? -1 : place_of((const char *)word.at);
    if (place == -1 || word.length % 2 == 0)
        return -1;
    if (word.length - 3 != 2 * (size_t)length)
        stop("a survivor of another length");
    return decode(to, word.at + 3, length) ? place : -1;
}

/* Reads a request; its survivors are decoded one after the other. Gives 0 where the line doesn't have its form. */
static int read_request(const unsigned char *at, const unsigned char *end, struct repair_asked *asked, unsigned char *memory,
                        unsigned char **sources)
{
    unsigned present = 0;
    if (!is_printable(at, end))
        return 0;
    struct word stripe = next_word(&at, end), target = next_word(&at, end), length = next_word(&at, end);
    asked->target = target.length == 2 ? place_of((const char *)target.at) : -1;
    asked->length = number_of(length);
    asked->count = 0;
    if (asked->target == -1 || asked->length == -1)
        return 0;
    if (stripe.length > 32 || asked->length == 0 || asked->length > MOST_LENGTH)
        stop("a request that is refused");
    for (struct word word; (word = next_word(&at, end)).length != 0;) {
        int place = read_survivor(word, asked->length, memory + (size_t)asked->count * MOST_LENGTH);
        if (place == -1)
            return 0;
        if (place == asked->target || (present >> place & 1))
            stop("a request that is refused");
        present |= 1u << place;
        sources[asked->count] = memory + (size_t)asked->count * MOST_LENGTH;
        asked->survivors[asked->count++] = place;
    }
    return 1;
}

/* ---- all lines */

struct reply {
    unsigned char *at;
    size_t length;
};

static size_t add_text(unsigned char *to, const char *text)
{
    size_t length = strlen(text);
    memcpy(to, text, length);
    return length;
}

/* The reply to a line, with its line feed. */
static size_t add_reply(unsigned char *to, const unsigned char *at, const unsigned char *end, unsigned char *memory, unsigned char **sums)
{
    struct repair_asked asked;
    unsigned char *sources[PLACES + 1];
    if (!read_request(at, end, &asked, memory, sources))
        return add_text(to, "refused E22\n");
    switch (rebuild(&asked, sources, sums)) {
    case CONTRADICTION:
        return add_text(to, "contradiction\n");
    case SEVERAL:
        return add_text(to, "several\n");
    default:
        encode(to + add_text(to, "rebuilt "), sums[0], asked.length);
        to[8 + 2 * asked.length] = '\n';
        return 9 + 2 * (size_t)asked.length;
    }
}

static int is_blank(const unsigned char *at, const unsigned char *end)
{
    while (at < end && *at == ' ')
        at++;
    return at == end;
}

/* A reply is shorter than its line and sixteen bytes more, or of a line whose survivors don't hold its fragment's bytes. */
static size_t reply_to_lines(unsigned char *to, const unsigned char *at, const unsigned char *end)
{
    unsigned char *memory = memory_of((PLACES + CHECK_ROWS + 1) * (size_t)MOST_LENGTH), *sums[CHECK_ROWS + 1], *start = to;
    for (int row = 0; row <= CHECK_ROWS; row++)
        sums[row] = memory + (PLACES + row) * (size_t)MOST_LENGTH;
    while (at < end) {
        const unsigned char *feed = memchr(at, '\n', end - at), *line_end = feed == NULL ? end : feed;
        if (feed != NULL && line_end > at && line_end[-1] == '\r')
            line_end--;
        if (!is_blank(at, line_end))
            to += add_reply(to, at, line_end, memory, sums);
        at = feed == NULL ? end : feed + 1;
    }
    return to - start;
}

/* ---- an input */

static void write_survivor(int place, const unsigned char *bytes, int length)
{
    static unsigned char digits[2 * MOST_LENGTH];
    encode(digits, bytes, length);
    printf(" %s=", place_names[place]);
    fwrite(digits, 1, 2 * (size_t)length, stdout);
}

/* The fragments of a line are cut out of the stripe at another place each time. */
static void write_lines(int length)
{
    static const struct repair_asked repairs[] = {
        {0, 0, 3, {1, 2, 6}},
        {0, 0, 6, {2, 5, 6, 7, 8, 9}},
        {4, 0, 3, {3, 5, 7}},
        {1, 0, 8, {0, 2, 3, 4, 5, 7, 8, 9}},
    };
    size_t written = 0;
    make_stripe();
    for (int line = 0;; line++) {
        const struct repair_asked *repair = &repairs[line % 4];
        int from = length == MOST_LENGTH ? 0 : line * 7 % (MOST_LENGTH - length);
        char front[64];
        size_t size = snprintf(front, sizeof front, "s%d %s %d", line, place_names[repair->target], length);
        size += repair->count * (4 + 2 * (size_t)length) + 1;
        if (written + size > MOST_INPUT)
            return;
        written += size;
        fputs(front, stdout);
        for (int s = 0; s < repair->count; s++)
            write_survivor(repair->survivors[s], fragments[repair->survivors[s]] + from, length);
        putchar('\n');
    }
}

int main(int count, char **words)
{
    make_digits();
    make_inverses();
    if (count == 2) {
        int length = atoi(words[1]);
        if (length < 1 || length > MOST_LENGTH)
            stop("lines [1 to 65536]");
        write_lines(length);
        return 0;
    }
    unsigned char *input = memory_of(MOST_INPUT + 1), *replies = memory_of(2 * (size_t)MOST_INPUT);
    size_t length = fread(input, 1, MOST_INPUT + 1, stdin);
    if (length > MOST_INPUT)
        stop("an input too long");
    size_t replied = reply_to_lines(replies, input, input + length);
    return fwrite(replies, 1, replied, stdout) == replied && fflush(stdout) == 0 ? 0 : 1;
}
