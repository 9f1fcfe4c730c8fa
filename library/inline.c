/* Tests the inline calls of library/lrc.h over a library that says what it is given and answers what it is told to. The rows, and what
 * each must answer and hand on, are in inline-rows.h, which gate/inline-calls.py writes. Exits with 0 if all is as it must be. */
#include <lrc.h>
#include <stdarg.h>
#include <stdio.h>
#include <stdlib.h>
#include <string.h>

/* A call of one of the functions that take fragments. */
enum call { ENCODE, UPDATE, REBUILD, REBUILD_MANY, VERIFY };

struct row {
    enum call call;
    unsigned code;
    uint32_t there;        /* the places whose pointers are not null; for an update the parities, the first in bit 0 */
    size_t length;
    const unsigned *places; /* the place, or the targets */
    size_t count;
    long without;          /* the room that is null, or -1: none; for an update, 0: the difference is */
    const uint32_t *told;  /* what the library answers, for each target in turn */
    uint32_t wanted;       /* what the call must answer */
    const char *handed_on; /* what the library must be given, where nothing is refused */
};

enum { ROOMS = 260, SAID = 65536, UNWRITTEN = 77 };

static uint8_t fragments[LRC_PLACES], rooms[ROOMS], difference;
static char said[SAID];
static size_t said_length, target_number;
static int refusals;
static const struct row *row;

static void say(const char *format, ...)
{
    va_list words;
    va_start(words, format);
    said_length += (size_t)vsnprintf(said + said_length, SAID - said_length, format, words);
    va_end(words);
    if (said_length >= SAID)
        abort();
}

/* A pointer and the length beside it: f and a place, r and a room's number, d for the difference; - for any other that is not null. */
static void say_bytes(const uint8_t *at, size_t length)
{
    if (at == NULL)
        say(" null:%zu", length);
    else if (at >= fragments && at < fragments + LRC_PLACES)
        say(" f%d:%zu", (int)(at - fragments), length);
    else if (at >= rooms && at < rooms + ROOMS)
        say(" r%d:%zu", (int)(at - rooms), length);
    else if (at == &difference)
        say(" d:%zu", length);
    else
        say(" -:%zu", length);
}

static void say_table(uint32_t survivors, const lrc_bytes at[LRC_PLACES])
{
    say(" %x", (unsigned)survivors);
    for (int p = 0; p < LRC_PLACES; p++)
        say_bytes(at[p].at, at[p].length);
}

/* ---- the library: what it refuses is what the header says of it */

static uint32_t places_of(uint8_t code)
{
    return code == 0 ? 0x3ff : code == 1 ? 0xffff : 0;
}

/* What the library answers: that an argument is bad where something is refused. */
static uint32_t answered(int refused, uint32_t status)
{
    refusals += refused != 0;
    return refused ? LRC_BAD_ARGUMENT : status;
}

static int differ(uint32_t survivors, const lrc_bytes at[LRC_PLACES], size_t length)
{
    for (int p = 0; p < LRC_PLACES; p++)
        if ((survivors >> p & 1) != 0 && at[p].length != length)
            return 1;
    return 0;
}

static int is_lost(uint8_t code, uint32_t survivors, uint8_t target)
{
    return target < LRC_PLACES && (places_of(code) >> target & 1) != 0 && (survivors >> target & 1) == 0;
}

uint32_t lrc_encode_into(uint8_t code, const lrc_bytes *data, size_t count, uint8_t *px, size_t px_length, uint8_t *py,
                         size_t py_length, uint8_t *p0, size_t p0_length, uint8_t *p1, size_t p1_length)
{
    int refused = code > 1 || count != (code == 0 ? 6u : 12u);
    say("encode %u", (unsigned)code);
    for (size_t i = 0; i < count && i < 12; i++) {
        say_bytes(data[i].at, data[i].length);
        refused |= data[i].length != px_length;
    }
    say(" |");
    say_bytes(px, px_length);
    say_bytes(py, py_length);
    say_bytes(p0, p0_length);
    say_bytes(p1, p1_length);
    refused |= py_length != px_length || p0_length != px_length || p1_length != px_length;
    return answered(refused, row->told[0]);
}

uint32_t lrc_update_into(uint8_t code, uint8_t place, const uint8_t *change, size_t length, uint8_t *px, size_t px_length,
                         uint8_t *py, size_t py_length, uint8_t *p0, size_t p0_length, uint8_t *p1, size_t p1_length)
{
    const size_t lengths[4] = {px_length, py_length, p0_length, p1_length};
    int refused = code > 1 || (places_of(code) >> place & 1) == 0 || (place >= LRC_PX && place <= LRC_P1);
    say("update %u %u", (unsigned)code, (unsigned)place);
    say_bytes(change, length);
    say_bytes(px, px_length);
    say_bytes(py, py_length);
    say_bytes(p0, p0_length);
    say_bytes(p1, p1_length);
    for (int i = 0; i < 4; i++)
        refused |= lengths[i] != 0 && lengths[i] != length;
    return answered(refused, row->told[0]);
}

uint32_t lrc_rebuild_into(uint8_t code, uint32_t survivors, const lrc_bytes at[LRC_PLACES], uint8_t target, uint8_t *out,
                          size_t length)
{
    say("rebuild %u", (unsigned)code);
    say_table(survivors, at);
    say(" %u", (unsigned)target);
    say_bytes(out, length);
    return answered((survivors & 0xffff & ~places_of(code)) != 0 || !is_lost(code, survivors, target) || length == 0 ||
                        differ(survivors, at, length), row->told[0]);
}

uint32_t lrc_rebuild_many_into(uint8_t code, uint32_t survivors, const lrc_bytes at[LRC_PLACES], size_t length,
                               const uint8_t targets[4], uint8_t *a, size_t a_length, uint8_t *b, size_t b_length, uint8_t *c,
                               size_t c_length, uint8_t *d, size_t d_length, uint32_t statuses[4])
{
    const uint8_t *outs[4] = {a, b, c, d};
    const size_t lengths[4] = {a_length, b_length, c_length, d_length};
    uint32_t greatest = 0;
    int refused = (survivors & 0xffff & ~places_of(code)) != 0 || places_of(code) == 0 || length == 0 || differ(survivors, at, length);
    say("many %u", (unsigned)code);
    say_table(survivors, at);
    say(" %zu", length);
    for (int i = 0; i < 4; i++) {
        say(" %u", (unsigned)targets[i]);
        say_bytes(outs[i], lengths[i]);
        refused |= targets[i] != LRC_NO_PLACE && (!is_lost(code, survivors, targets[i]) || lengths[i] != length);
    }
    for (int i = 0; i < 4 && !refused; i++) {
        statuses[i] = targets[i] != LRC_NO_PLACE && target_number < row->count ? row->told[target_number++] : 0;
        greatest = statuses[i] > greatest ? statuses[i] : greatest;
    }
    return answered(refused, greatest);
}

uint32_t lrc_verify_at(uint8_t code, uint32_t survivors, const lrc_bytes at[LRC_PLACES], size_t length)
{
    say("verify %u", (unsigned)code);
    say_table(survivors, at);
    say(" %zu", length);
    return answered(code > 1 || (survivors & 0xffff & ~places_of(code)) != 0 || differ(survivors, at, length), row->told[0]);
}

/* The inline calls have no use for these. */
uint32_t lrc_version(void) { abort(); }
uint32_t lrc_add(uint8_t *dst, size_t dst_length, const uint8_t *src, size_t src_length)
{
    (void)dst, (void)dst_length, (void)src, (void)src_length;
    abort();
}
uint32_t lrc_scale_add(uint8_t *dst, size_t dst_length, uint8_t scalar, const uint8_t *src, size_t src_length)
{
    (void)dst, (void)dst_length, (void)scalar, (void)src, (void)src_length;
    abort();
}
uint32_t lrc_combine(const uint8_t *coefficients, size_t count, const lrc_bytes *sources, size_t source_count, uint8_t *out,
                     size_t length)
{
    (void)coefficients, (void)count, (void)sources, (void)source_count, (void)out, (void)length;
    abort();
}
uint32_t lrc_reads_into(uint8_t code, uint32_t wanted, uint32_t available, uint32_t *reads)
{
    (void)code, (void)wanted, (void)available, (void)reads;
    abort();
}
uint32_t lrc_cheapest_reads_into(uint8_t code, uint32_t wanted, uint32_t available, const uint32_t costs[LRC_PLACES], uint32_t *reads)
{
    (void)code, (void)wanted, (void)available, (void)costs, (void)reads;
    abort();
}
uint32_t lrc_plan_into(uint8_t code, uint32_t survivors, uint8_t target, lrc_plan *plan)
{
    (void)code, (void)survivors, (void)target, (void)plan;
    abort();
}
uint32_t lrc_apply(const uint8_t coefficients[LRC_PLACES], const lrc_bytes at[LRC_PLACES], uint8_t *out, size_t length)
{
    (void)coefficients, (void)at, (void)out, (void)length;
    abort();
}

/* ---- the rows */

/* What a call that names and counts must answer: of two numbers a third. */
struct number { size_t one, two, three, wanted; };
/* A name and its place, or a status and its text. */
struct name { const char *text; unsigned number; };
/* A set of places and a length, and the table that it makes. */
struct filled { uint32_t there; size_t length; const char *wanted; };
/* Coefficients of which these are not 0: bits of the value, and of each check. */
struct counts { uint32_t rows[5]; unsigned reads, checks; };

#include "inline-rows.h"

#define COUNT(rows) (sizeof(rows) / sizeof *(rows))

static unsigned long tests;

static void fail(const char *what, size_t number)
{
    printf("failed: %s, row %zu\n", what, number);
    exit(1);
}

static void same(size_t had, size_t wanted, const char *what, size_t number)
{
    tests++;
    if (had != wanted) {
        printf("%zu and not %zu\n", had, wanted);
        fail(what, number);
    }
}

static void same_text(const char *had, const char *wanted, const char *what, size_t number)
{
    tests++;
    if (strcmp(had, wanted) != 0) {
        printf("had:    %s\nwanted: %s\n", had, wanted);
        fail(what, number);
    }
}

static void numbers(void)
{
    for (size_t i = 0; i < COUNT(counts_of_code); i++) {
        enum lrc_code code = (enum lrc_code)counts_of_code[i].one;
        same(lrc_data_count(code), counts_of_code[i].two, "lrc_data_count", i);
        same(lrc_fragment_count(code), counts_of_code[i].wanted, "lrc_fragment_count", i);
    }
    for (size_t i = 0; i < COUNT(data_places); i++)
        same(lrc_data_place((enum lrc_code)data_places[i].one, data_places[i].two), data_places[i].wanted, "lrc_data_place", i);
    for (size_t i = 0; i < COUNT(has_places); i++)
        same(lrc_has_place((enum lrc_code)has_places[i].one, (enum lrc_place)has_places[i].two) != 0, has_places[i].wanted,
             "lrc_has_place", i);
    for (size_t i = 0; i < COUNT(shard_places); i++) {
        const struct number *it = &shard_places[i];
        same(lrc_shard_place((enum lrc_code)it->one, (enum lrc_layout)it->two, it->three), it->wanted, "lrc_shard_place", i);
    }
    for (size_t i = 0; i < COUNT(place_shards); i++) {
        const struct number *it = &place_shards[i];
        same(lrc_place_shard((enum lrc_code)it->one, (enum lrc_layout)it->two, (enum lrc_place)it->three), it->wanted,
             "lrc_place_shard", i);
    }
    for (size_t i = 0; i < COUNT(fragment_lengths); i++) {
        const struct number *it = &fragment_lengths[i];
        same(lrc_fragment_length((enum lrc_code)it->one, it->two, it->three), it->wanted, "lrc_fragment_length", i);
    }
}

static void names(void)
{
    for (size_t i = 0; i < COUNT(place_names); i++)
        same_text(lrc_place_name((enum lrc_place)place_names[i].number), place_names[i].text, "lrc_place_name", i);
    for (size_t i = 0; i < COUNT(named_places); i++)
        same(lrc_place_named(named_places[i].text), named_places[i].number, "lrc_place_named", i);
    for (size_t i = 0; i < COUNT(status_texts); i++)
        same_text(lrc_status_text(status_texts[i].number), status_texts[i].text, "lrc_status_text", i);
}

static void plans(void)
{
    for (size_t i = 0; i < COUNT(plan_counts); i++) {
        lrc_plan plan;
        memset(&plan, 0, sizeof plan);
        for (int r = 0; r < 5; r++)
            for (int p = 0; p < LRC_PLACES; p++)
                if (plan_counts[i].rows[r] >> p & 1)
                    (r == 0 ? plan.value : plan.checks[r - 1])[p] = (uint8_t)(p + 1);
        same(lrc_plan_reads(&plan), plan_counts[i].reads, "lrc_plan_reads", i);
        same(lrc_plan_checks(&plan), plan_counts[i].checks, "lrc_plan_checks", i);
    }
}

static void survivors(void)
{
    for (size_t i = 0; i < COUNT(filled_tables); i++) {
        const uint8_t *given[LRC_PLACES];
        lrc_bytes at[LRC_PLACES];
        memset(at, 7, sizeof at);
        for (int p = 0; p < LRC_PLACES; p++)
            given[p] = filled_tables[i].there >> p & 1 ? &fragments[p] : NULL;
        said_length = 0;
        say_table(lrc_survivors(given, at, filled_tables[i].length), at);
        same_text(said, filled_tables[i].wanted, "lrc_survivors", i);
    }
}

static uint32_t called(uint32_t statuses[ROOMS])
{
    uint8_t *given[LRC_PLACES], *outs[ROOMS];
    enum lrc_code code = (enum lrc_code)row->code;
    enum lrc_place targets[ROOMS];
    for (int p = 0; p < LRC_PLACES; p++)
        given[p] = row->there >> p & 1 ? &fragments[p] : NULL;
    for (size_t i = 0; i < ROOMS; i++) {
        outs[i] = (long)i != row->without ? &rooms[i] : NULL;
        if (i < row->count)
            targets[i] = (enum lrc_place)row->places[i];
    }
    switch (row->call) {
    case ENCODE:
        return lrc_encode(code, given, row->length);
    case UPDATE:
        return lrc_update(code, targets[0], row->without == 0 ? NULL : &difference, given, row->length);
    case REBUILD:
        return lrc_rebuild(code, LRC_READ(given), targets[0], outs[0], row->length);
    case REBUILD_MANY:
        return lrc_rebuild_many(code, LRC_READ(given), targets, outs, statuses, row->count, row->length);
    default:
        return lrc_verify(code, LRC_READ(given), row->length);
    }
}

/* A call that is refused hands nothing on but what the library refuses too, and writes no status. */
static void calls(void)
{
    static const char *const kinds[] = {"lrc_encode", "lrc_update", "lrc_rebuild", "lrc_rebuild_many", "lrc_verify"};
    for (size_t i = 0; i < COUNT(all_calls); i++) {
        uint32_t statuses[ROOMS];
        int refused;
        row = &all_calls[i];
        refused = row->handed_on == NULL;
        for (size_t k = 0; k < ROOMS; k++)
            statuses[k] = UNWRITTEN;
        said_length = target_number = 0;
        said[0] = '\0';
        refusals = 0;
        same(called(statuses), row->wanted, kinds[row->call], i);
        if (refused)
            same(said_length == 0 || refusals != 0, 1, kinds[row->call], i);
        else
            same_text(said, row->handed_on, kinds[row->call], i);
        for (size_t k = 0; k < ROOMS; k++)
            same(statuses[k], !refused && row->call == REBUILD_MANY && k < row->count ? row->told[k] : UNWRITTEN, kinds[row->call], i);
    }
}

int main(void)
{
    numbers();
    names();
    plans();
    survivors();
    calls();
    printf("%lu tests of the inline calls passed\n", tests);
    return 0;
}
