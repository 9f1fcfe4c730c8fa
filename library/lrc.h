/* Local Reconstruction Codes with six or twelve data fragments, two local and two global parities: encoding, updating, plans,
 * rebuilding and verifying over the caller's buffers. docs/LIBRARY.md says how to link it and what is proved of it.
 *
 * A stripe has a fragment of equal length at each place of its code. Lengths are in bytes, and have no limit but memory. The codes
 * have the form of Huang et al., "Erasure Coding in Windows Azure Storage" (USENIX ATC 2012), over the field of 256 elements with
 * the polynomial 11D; their coefficients are this project's own (docs/FORMATS.md), so fragments that Azure or another code of that
 * form wrote can't be rebuilt. What holds of a stripe holds position by position, so fragments can be cut anywhere, and all pieces
 * of one position are a stripe again.
 *
 *     uint8_t *stripe[LRC_PLACES] = {0};          // 16 pointers by place; NULL where the code has no place
 *     ..                                          // the data, and room for LRC_PX to LRC_P1
 *     lrc_encode(LRC_6_2_2, stripe, length);      // writes the four parities
 *     ..
 *     const uint8_t *left[LRC_PLACES] = {0};      // NULL: lost
 *     ..
 *     uint32_t status = lrc_rebuild(LRC_6_2_2, left, LRC_X0, out, length);
 *     if (status != LRC_OK)
 *         fprintf(stderr, "x0: %s\n", lrc_status_text(status));
 *
 * Memory. No function takes memory, and none keeps a pointer beyond its call: all buffers are the caller's. A call uses less
 * than 16 KiB of stack.
 *
 * Threads. There is no state: any function may be called from any thread, on buffers that no other thread writes, and from a
 * signal handler.
 *
 * Statuses. Each function tests its numbers and lengths, and answers LRC_BAD_ARGUMENT, with nothing written, if they are
 * not what it asks. No function aborts, and each returns.
 *
 * Sets of places are bits: bit p of a mask is that of place p. Bits 16 and higher are ignored by every call.
 *
 * Numbers of no code, place, layout or status, such as (enum lrc_code)2, are safe: each call says what it answers.
 *
 * Length 0. The calls that rebuild refuse it; the others answer LRC_OK, and write no byte of a fragment.
 *
 * The caller must ensure:
 *   - a pointer points to as many bytes as the length beside it says, and is not null, also if that length is 0 or if it
 *     is not read: of the sixteen entries of a table `at` none is null;
 *   - a buffer that is written overlaps no other argument.
 * Of the functions in "the library's functions" the answers are proved, but for what is said there to be tested. Those after it
 * count places or fill the tables, and are tested. Those that only read fragments take an array of pointers to const; in C, unlike
 * C++, an array of other pointers needs LRC_READ:
 *     lrc_verify(code, LRC_READ(stripe), length) */
#ifndef LRC_H
#define LRC_H

#include <stddef.h>
#include <stdint.h>

#define LRC_VERSION "0.2.0"
/* 10,000 times the first number, 100 times the second, and the third: what lrc_version answers of a library of this header. */
#define LRC_VERSION_NUMBER 200

/* Among the targets of lrc_rebuild_many_into: no target. */
#define LRC_NO_PLACE 255

/* An array of pointers to fragments, for a call that only reads them. */
#define LRC_READ(fragments) ((const uint8_t *const *)(fragments))

#ifdef __cplusplus
extern "C" {
#endif

enum lrc_code {
    LRC_6_2_2 = 0,
    LRC_12_2_2 = 1
};

/* The (6,2,2) code has the places LRC_X0 to LRC_P1, the (12,2,2) code all sixteen. The group of px is x0 to x2, or x0 to x5,
 * that of py is y0 to y2, or y0 to y5: a local parity is the sum of its group. p0 and p1 are the global parities. */
enum lrc_place {
    LRC_X0, LRC_X1, LRC_X2, LRC_Y0, LRC_Y1, LRC_Y2, LRC_PX, LRC_PY, LRC_P0, LRC_P1,
    LRC_X3, LRC_X4, LRC_X5, LRC_Y3, LRC_Y4, LRC_Y5,
    LRC_PLACES
};

/* Orders in which stores number the fragments of a stripe, from 0: the data x0, x1, .., y0, y1, .. and then px, py, p0, p1; or by
 * groups, x0, x1, .., px, y0, y1, .., py, p0, p1. */
enum lrc_layout {
    LRC_PLAIN = 0,
    LRC_GROUPS = 1
};

enum lrc_status {
    LRC_OK = 0,            /* done: written, rebuilt, determined, those of a stripe */
    LRC_CONTRADICTION = 1, /* no stripe has these fragments: one is damaged, or of another stripe or code */
    LRC_SEVERAL = 2,       /* two stripes have these fragments and differ at the target or a wanted place: more are needed */
    LRC_BAD_ARGUMENT = 3   /* invalid argument: a number or a length is not what the function asks; nothing was written */
};

/* A read-only buffer. */
typedef struct lrc_bytes {
    const uint8_t *at;
    size_t length;
} lrc_bytes;

/* Coefficients by place, for a lost target and a set of survivors. At each position the target's byte is the sum of value[p]
 * times the byte at p, over all places p; the survivors are those of a stripe exactly if, at every position and for each
 * r, the sum of checks[r][p] times the byte at p is 0. Places that do not survive have 0 in all rows. All-zero rows are unused:
 * there are as many checks as other rows. */
typedef struct lrc_plan {
    uint8_t value[LRC_PLACES];
    uint8_t checks[4][LRC_PLACES];
} lrc_plan;

/* ---- the library's functions */

/* The version of the linked library; LRC_VERSION_NUMBER if it is that of this header. */
uint32_t lrc_version(void);

/* dst[i] ^= src[i]. LRC_BAD_ARGUMENT if the lengths differ. */
uint32_t lrc_add(uint8_t *dst, size_t dst_length, const uint8_t *src, size_t src_length);

/* dst[i] ^= scalar * src[i] in the field. LRC_BAD_ARGUMENT if the lengths differ. */
uint32_t lrc_scale_add(uint8_t *dst, size_t dst_length, uint8_t scalar, const uint8_t *src, size_t src_length);

/* out[i] = the sum of coefficients[k] * sources[k].at[i], each source read once. LRC_BAD_ARGUMENT if there are more than 16
 * sources or not as many as coefficients, or if one whose coefficient is not 0 has another length than `out`; one with
 * coefficient 0 is not read. */
uint32_t lrc_combine(const uint8_t *coefficients, size_t count, const lrc_bytes *sources, size_t source_count, uint8_t *out,
                     size_t length);

/* Writes the four parities of the data fragments, which are in the order x0, x1, .., y0, y1, .. LRC_BAD_ARGUMENT if the number
 * is no code's, `count` is not 6 or 12 as the code says, or the lengths differ. */
uint32_t lrc_encode_into(uint8_t code, const lrc_bytes *data, size_t count, uint8_t *px, size_t px_length, uint8_t *py,
                         size_t py_length, uint8_t *p0, size_t p0_length, uint8_t *p1, size_t p1_length);

/* Brings parities up to date after one data fragment of their stripe changed: adds to each the place's coefficient in it times the
 * difference, which is the sum (exclusive or) of the fragment's bytes before and after. A parity whose length is 0 is left
 * alone. LRC_BAD_ARGUMENT if the number is no code's, the place is none of its data places, or a parity's length is neither 0
 * nor that of the difference. */
uint32_t lrc_update_into(uint8_t code, uint8_t place, const uint8_t *difference, size_t length, uint8_t *px, size_t px_length,
                         uint8_t *py, size_t py_length, uint8_t *p0, size_t p0_length, uint8_t *p1, size_t p1_length);

/* What to read for wanted places: writes the bits of available places that determine all wanted ones. A wanted place that is
 * available is among them; of the others none can be left out, and they are as few as do. For one lost place whose group's others
 * are available these are the group's others. That they are as few, and the group's, is tested and not proved. LRC_OK, or
 * LRC_SEVERAL if the available places do not determine a wanted one; then nothing is written. LRC_BAD_ARGUMENT if the number
 * is no code's, or a wanted place is not in the code. Available places that are not in the code are ignored. */
uint32_t lrc_reads_into(uint8_t code, uint32_t wanted, uint32_t available, uint32_t *reads);

/* The same with a cost for each place: the sum of costs[p] over the places p that are written is the least that does, which is
 * tested and not proved. */
uint32_t lrc_cheapest_reads_into(uint8_t code, uint32_t wanted, uint32_t available, const uint32_t costs[LRC_PLACES],
                                 uint32_t *reads);

/* Writes the plan for a lost place: bit p of `survivors` says that place p survives. LRC_OK, or LRC_SEVERAL if the
 * survivors do not determine the target; then the checks alone are written, and `value` keeps its bytes. LRC_BAD_ARGUMENT if
 * the number is no code's, the code has no such place, or it survives. Survivors that are not in the code are ignored. */
uint32_t lrc_plan_into(uint8_t code, uint32_t survivors, uint8_t target, lrc_plan *plan);

/* Writes what a row of a plan gives: the sum of row[p] times the bytes at[p]. With a plan's value these are the target's bytes
 * in each stripe that has the survivors' bytes; with a check they are all 0 if there is such a stripe, which follows from what
 * lrc_plan says of checks and is tested. Pieces of any length may be passed. Bytes whose coefficient is 0 are not read, and may have
 * any length; all sixteen pointers are not null. LRC_BAD_ARGUMENT if others have another length than `out`. Nothing is tested of
 * the bytes, so with a plan's value this rebuilds without checks. */
uint32_t lrc_apply(const uint8_t row[LRC_PLACES], const lrc_bytes at[LRC_PLACES], uint8_t *out, size_t length);

/* Writes the fragment at a lost place: LRC_OK, and each stripe that has the survivors' bytes has those in `out` there, and there
 * is one; LRC_CONTRADICTION, and there is none; or LRC_SEVERAL. All checks are tested in any case. With the last two the contents
 * of `out` are unspecified. at[p] is read if bit p of `survivors` is set. LRC_BAD_ARGUMENT if it then has another length than
 * `out`, that length is 0, a bit is set of a place not in the code, or lrc_plan_into answers it. */
uint32_t lrc_rebuild_into(uint8_t code, uint32_t survivors, const lrc_bytes at[LRC_PLACES], uint8_t target, uint8_t *out,
                          size_t length);

/* The same for up to four targets, with the survivors' checks tested once: targets[0] is written to `a`, and so on. Each has its
 * status as lrc_rebuild_into would give it; LRC_NO_PLACE means no target, whose status is 0, and whose room may have any length and
 * is then unspecified. The answer is the greatest status. LRC_BAD_ARGUMENT, with no status written, if the number is no code's, a
 * bit of `survivors` is set of a place not in the code, a survivor's length or a target's room's is not `length`, `length` is 0, or
 * a target is neither LRC_NO_PLACE nor a lost place of the code. */
uint32_t lrc_rebuild_many_into(uint8_t code, uint32_t survivors, const lrc_bytes at[LRC_PLACES], size_t length,
                               const uint8_t targets[4], uint8_t *a, size_t a_length, uint8_t *b, size_t b_length, uint8_t *c,
                               size_t c_length, uint8_t *d, size_t d_length, uint32_t statuses[4]);

/* Whether the survivors are those of a stripe, or with all places of the code, whether they are a stripe: LRC_OK or
 * LRC_CONTRADICTION. LRC_BAD_ARGUMENT if the number is no code's, a bit is set of a place not in the code, or the
 * bytes of one have another length. If the survivors have no check, as any six of the (6,2,2) code that determine the others,
 * all bytes are those of a stripe: LRC_OK then says nothing about them. */
uint32_t lrc_verify_at(uint8_t code, uint32_t survivors, const lrc_bytes at[LRC_PLACES], size_t length);

/* ---- names and numbers */

/* What a status says, in English; "unknown status" of another number. */
static inline const char *lrc_status_text(uint32_t status)
{
    switch (status) {
    case LRC_OK:
        return "done";
    case LRC_CONTRADICTION:
        return "no stripe has these fragments";
    case LRC_SEVERAL:
        return "the fragments that are left do not determine the lost one";
    case LRC_BAD_ARGUMENT:
        return "invalid argument";
    default:
        return "unknown status";
    }
}

/* The name of a place, as "x0"; "" of no place. */
static inline const char *lrc_place_name(enum lrc_place place)
{
    static const char names[LRC_PLACES][3] = {"x0", "x1", "x2", "y0", "y1", "y2", "px", "py",
                                              "p0", "p1", "x3", "x4", "x5", "y3", "y4", "y5"};
    return (unsigned)place < LRC_PLACES ? names[place] : "";
}

/* The place of a name; LRC_PLACES if there is none. */
static inline enum lrc_place lrc_place_named(const char *name)
{
    unsigned p = 0;
    while (p < LRC_PLACES) {
        const char *other = lrc_place_name((enum lrc_place)p);
        if (name[0] == other[0] && name[0] != '\0' && name[1] == other[1] && name[1] != '\0' && name[2] == '\0')
            break;
        p++;
    }
    return (enum lrc_place)p;
}

/* How many data fragments a code has: 6 or 12; 0 of no code. */
static inline size_t lrc_data_count(enum lrc_code code)
{
    return code == LRC_6_2_2 ? 6 : code == LRC_12_2_2 ? 12 : 0;
}

/* The place of the i-th data fragment, in the order x0, x1, .., y0, y1, ..; LRC_PLACES if there are not as many, or no code. */
static inline enum lrc_place lrc_data_place(enum lrc_code code, size_t i)
{
    static const uint8_t places[2][12] = {
        {LRC_X0, LRC_X1, LRC_X2, LRC_Y0, LRC_Y1, LRC_Y2},
        {LRC_X0, LRC_X1, LRC_X2, LRC_X3, LRC_X4, LRC_X5, LRC_Y0, LRC_Y1, LRC_Y2, LRC_Y3, LRC_Y4, LRC_Y5}};
    return i < lrc_data_count(code) ? (enum lrc_place)places[code][i] : LRC_PLACES;
}

/* How many fragments a stripe has: 10 or 16; 0 of no code. */
static inline size_t lrc_fragment_count(enum lrc_code code)
{
    return lrc_data_count(code) != 0 ? lrc_data_count(code) + 4 : 0;
}

/* The place of a fragment's number in a layout; LRC_PLACES if there is no such number, code or layout. */
static inline enum lrc_place lrc_shard_place(enum lrc_code code, enum lrc_layout layout, size_t shard)
{
    size_t data = lrc_data_count(code), half = data / 2;
    if ((layout != LRC_PLAIN && layout != LRC_GROUPS) || shard >= lrc_fragment_count(code))
        return LRC_PLACES;
    if (layout == LRC_PLAIN)
        return shard < data ? lrc_data_place(code, shard) : (enum lrc_place)(LRC_PX + (shard - data));
    if (shard == half)
        return LRC_PX;
    if (shard > data)
        return (enum lrc_place)(LRC_PY + (shard - data - 1));
    return lrc_data_place(code, shard < half ? shard : shard - 1);
}

/* The number of the fragment at a place in a layout; LRC_PLACES if there is no such place, code or layout. */
static inline size_t lrc_place_shard(enum lrc_code code, enum lrc_layout layout, enum lrc_place place)
{
    for (size_t shard = 0; shard < LRC_PLACES; shard++)
        if (lrc_shard_place(code, layout, shard) == place && (unsigned)place < LRC_PLACES)
            return shard;
    return LRC_PLACES;
}

/* The length of fragments for so many bytes: the least multiple of `alignment` at which the data fragments hold them all, which is
 * never too great for a size_t. 0 if there are no bytes, `alignment` is 0, or there is no such code. */
static inline size_t lrc_fragment_length(enum lrc_code code, size_t bytes, size_t alignment)
{
    size_t count = lrc_data_count(code), length, over;
    if (count == 0 || alignment == 0)
        return 0;
    length = bytes / count + (bytes % count != 0);
    over = length % alignment;
    return over != 0 ? length + (alignment - over) : length;
}

/* Whether the code has the place; 0 of no code, as of no place. */
static inline int lrc_has_place(enum lrc_code code, enum lrc_place place)
{
    return (code == LRC_6_2_2 && (unsigned)place <= LRC_P1) || (code == LRC_12_2_2 && (unsigned)place < LRC_PLACES);
}

/* How many survivors a plan's value reads. */
static inline unsigned lrc_plan_reads(const lrc_plan *plan)
{
    unsigned reads = 0;
    for (int p = 0; p < LRC_PLACES; p++)
        reads += plan->value[p] != 0;
    return reads;
}

/* How many checks a plan has: rows that are not all 0. */
static inline unsigned lrc_plan_checks(const lrc_plan *plan)
{
    unsigned checks = 0;
    for (int r = 0; r < 4; r++) {
        unsigned any = 0;
        for (int p = 0; p < LRC_PLACES; p++)
            any |= plan->checks[r][p];
        checks += any != 0;
    }
    return checks;
}

/* ---- the same over arrays of pointers by place, with one length; a null pointer is a lost fragment, which lrc_encode refuses */

/* Fills the table that the functions above read, and answers the survivors' bits. */
static inline uint32_t lrc_survivors(const uint8_t *const fragments[LRC_PLACES], lrc_bytes at[LRC_PLACES], size_t length)
{
    static const uint8_t nothing = 0;
    uint32_t survivors = 0;
    for (int p = 0; p < LRC_PLACES; p++) {
        at[p].at = fragments[p] != NULL ? fragments[p] : &nothing;
        at[p].length = fragments[p] != NULL ? length : 0;
        if (fragments[p] != NULL)
            survivors |= UINT32_C(1) << p;
    }
    return survivors;
}

/* Writes the four parities of a stripe; the fragments at the code's data places are read. LRC_OK, or LRC_BAD_ARGUMENT if the
 * code is none, or a pointer to one of its fragments is null. */
static inline uint32_t lrc_encode(enum lrc_code code, uint8_t *const fragments[LRC_PLACES], size_t length)
{
    lrc_bytes data[12];
    if (code != LRC_6_2_2 && code != LRC_12_2_2)
        return LRC_BAD_ARGUMENT;
    for (size_t i = 0; i < lrc_data_count(code); i++) {
        data[i].at = fragments[lrc_data_place(code, i)];
        data[i].length = length;
        if (data[i].at == NULL)
            return LRC_BAD_ARGUMENT;
    }
    for (int p = LRC_PX; p <= LRC_P1; p++)
        if (fragments[p] == NULL)
            return LRC_BAD_ARGUMENT;
    return lrc_encode_into((uint8_t)code, data, lrc_data_count(code), fragments[LRC_PX], length, fragments[LRC_PY], length,
                           fragments[LRC_P0], length, fragments[LRC_P1], length);
}

/* lrc_update_into with pointers to px, py, p0 and p1, in this order, as &stripe[LRC_PX] has them; a parity whose pointer is null is
 * left alone. LRC_BAD_ARGUMENT also if `difference` is null. */
static inline uint32_t lrc_update(enum lrc_code code, enum lrc_place place, const uint8_t *difference, uint8_t *const parities[4],
                                  size_t length)
{
    uint8_t none[4], *rooms[4];
    size_t lengths[4];
    if ((code != LRC_6_2_2 && code != LRC_12_2_2) || (unsigned)place >= LRC_PLACES || difference == NULL)
        return LRC_BAD_ARGUMENT;
    for (int i = 0; i < 4; i++) {
        rooms[i] = parities[i] != NULL ? parities[i] : &none[i];
        lengths[i] = parities[i] != NULL ? length : 0;
    }
    return lrc_update_into((uint8_t)code, (uint8_t)place, difference, length, rooms[0], lengths[0], rooms[1], lengths[1],
                           rooms[2], lengths[2], rooms[3], lengths[3]);
}

/* lrc_rebuild_into: the fragment at `target`, which is lost, goes to `out`. LRC_BAD_ARGUMENT also if `out` is null. */
static inline uint32_t lrc_rebuild(enum lrc_code code, const uint8_t *const fragments[LRC_PLACES], enum lrc_place target,
                                   uint8_t *out, size_t length)
{
    lrc_bytes at[LRC_PLACES];
    uint32_t survivors = lrc_survivors(fragments, at, length);
    if ((code != LRC_6_2_2 && code != LRC_12_2_2) || (unsigned)target >= LRC_PLACES || out == NULL)
        return LRC_BAD_ARGUMENT;
    return lrc_rebuild_into((uint8_t)code, survivors, at, (uint8_t)target, out, length);
}

/* lrc_rebuild_many_into for one target or more, four in a pass: targets[i] goes to outs[i], and its status to statuses[i]. The
 * answer is the greatest status. LRC_BAD_ARGUMENT, with no status written, if there is no target, or lrc_rebuild answers it of
 * one of them. */
static inline uint32_t lrc_rebuild_many(enum lrc_code code, const uint8_t *const fragments[LRC_PLACES],
                                        const enum lrc_place *targets, uint8_t *const *outs, uint32_t *statuses, size_t count,
                                        size_t length)
{
    lrc_bytes at[LRC_PLACES];
    uint32_t survivors = lrc_survivors(fragments, at, length), greatest = LRC_OK;
    if ((code != LRC_6_2_2 && code != LRC_12_2_2) || count == 0)
        return LRC_BAD_ARGUMENT;
    for (size_t i = 0; i < count; i++)
        if (!lrc_has_place(code, targets[i]) || fragments[targets[i]] != NULL || outs[i] == NULL)
            return LRC_BAD_ARGUMENT;
    for (size_t from = 0; from < count; from += 4) {
        uint8_t none[4], numbers[4], *rooms[4];
        size_t lengths[4];
        uint32_t answers[4];
        uint32_t status;
        for (size_t i = 0; i < 4; i++) {
            int asked = from + i < count;
            numbers[i] = asked ? (uint8_t)targets[from + i] : (uint8_t)LRC_NO_PLACE;
            rooms[i] = asked ? outs[from + i] : &none[i];
            lengths[i] = asked ? length : 0;
        }
        status = lrc_rebuild_many_into((uint8_t)code, survivors, at, length, numbers, rooms[0], lengths[0], rooms[1],
                                       lengths[1], rooms[2], lengths[2], rooms[3], lengths[3], answers);
        if (status == LRC_BAD_ARGUMENT)
            return LRC_BAD_ARGUMENT;
        for (size_t i = 0; i < 4 && from + i < count; i++)
            statuses[from + i] = answers[i];
        if (status > greatest)
            greatest = status;
    }
    return greatest;
}

/* lrc_verify_at: whether the fragments that are there are those of a stripe. Too few fragments have no check; LRC_OK then says
 * nothing of them. */
static inline uint32_t lrc_verify(enum lrc_code code, const uint8_t *const fragments[LRC_PLACES], size_t length)
{
    lrc_bytes at[LRC_PLACES];
    uint32_t survivors = lrc_survivors(fragments, at, length);
    if (code != LRC_6_2_2 && code != LRC_12_2_2)
        return LRC_BAD_ARGUMENT;
    return lrc_verify_at((uint8_t)code, survivors, at, length);
}

#ifdef __cplusplus
}
#endif

#endif
