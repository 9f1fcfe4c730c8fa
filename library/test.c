/* Tests the C library against products by shifts and its own stripes: encodes, loses every three and every four fragments,
 * rebuilds them one by one, together and by plans, and compares; then each function's refusals, what plans read and how much
 * stack each call uses. Exits with 0 if all is as it must be. */
#ifndef SHORT
#define _XOPEN_SOURCE 700
#include <ucontext.h>
#endif
#include "stripes.h"
#include <string.h>

/* With SHORT, as under sanitizers and valgrind: shorter fragments, and one of STEP sets of lost ones. */
#ifdef SHORT
enum { MOST = 20001, STEP = 17 };
#else
enum { MOST = 1000003, STEP = 1 };
#endif

static uint8_t store[LRC_PLACES][MOST];
static uint8_t outs[5][MOST], wanted[MOST];

/* The bytes of a stripe whose data are random and whose parities are encoded; they are compared with products by shifts. */
static void make(enum lrc_code code, size_t length, uint8_t *fragments[LRC_PLACES])
{
    for (int p = 0; p < LRC_PLACES; p++) {
        fragments[p] = lrc_has_place(code, (enum lrc_place)p) ? store[p] : NULL;
        for (size_t k = 0; k < length; k++)
            store[p][k] = random_byte();
    }
    test(lrc_encode(code, fragments, length) == LRC_OK, "encode");
    for (int r = 0; r < 4; r++) {
        memset(wanted, 0, length);
        for (size_t i = 0; i < lrc_data_count(code); i++) {
            uint8_t products[256];
            for (int b = 0; b < 256; b++)
                products[b] = product(coefficient(code, r, i), (uint8_t)b);
            for (size_t k = 0; k < length; k++)
                wanted[k] ^= products[store[lrc_data_place(code, i)][k]];
        }
        test(memcmp(wanted, store[LRC_PX + r], length) == 0, "a parity");
    }
}

/* Whether the first bytes of a room are as they were filled. */
static void untouched(const uint8_t *bytes, size_t length)
{
    for (size_t k = 0; k < length; k++)
        test(bytes[k] == 7, "nothing written");
}

/* A plan's rows over the survivors, by lrc_apply and by the two kernels. */
static void by_plan(enum lrc_code code, uint32_t survivors, const lrc_bytes at[LRC_PLACES], int target, size_t length,
                    uint32_t status)
{
    lrc_plan plan;
    memset(&plan, 7, sizeof plan);
    test(lrc_plan_into((uint8_t)code, survivors, (uint8_t)target, &plan) == status, "the plan's status");
    for (int r = 0; r < 4; r++) {
        for (int p = 0; p < LRC_PLACES; p++)
            test((survivors >> p & 1) != 0 || plan.checks[r][p] == 0, "a check reads survivors");
        test(lrc_apply(plan.checks[r], at, wanted, length) == LRC_OK, "apply");
        for (size_t k = 0; k < length; k++)
            test(wanted[k] == 0, "a check");
    }
    if (status != LRC_OK) {
        untouched(plan.value, LRC_PLACES);
        return;
    }
    test(lrc_apply(plan.value, at, wanted, length) == LRC_OK, "apply");
    test(memcmp(wanted, store[target], length) == 0, "the planned fragment");
    memset(wanted, 0, length);
    for (int p = 0; p < LRC_PLACES; p++) {
        test((survivors >> p & 1) != 0 || plan.value[p] == 0, "a plan reads survivors");
        if (plan.value[p] == 1)
            test(lrc_add(wanted, length, store[p], length) == LRC_OK, "add");
        else if (plan.value[p] != 0)
            test(lrc_scale_add(wanted, length, plan.value[p], store[p], length) == LRC_OK, "scale_add");
    }
    test(memcmp(wanted, store[target], length) == 0, "the fragment by the kernels");
}

/* Loses the fragments of a set, and rebuilds each, alone and together. The number of them that are determined. */
static int lose(enum lrc_code code, uint32_t lost, size_t length)
{
    const uint8_t *left[LRC_PLACES];
    enum lrc_place targets[5];
    uint8_t *rooms[5] = {outs[0], outs[1], outs[2], outs[3], outs[4]};
    uint32_t statuses[5] = {9, 9, 9, 9, 9}, greatest = LRC_OK;
    lrc_bytes at[LRC_PLACES];
    int rebuilt = 0;
    size_t count = 0;
    for (int p = 0; p < LRC_PLACES; p++) {
        left[p] = lrc_has_place(code, (enum lrc_place)p) && !(lost >> p & 1) ? store[p] : NULL;
        if (lost >> p & 1)
            targets[count++] = (enum lrc_place)p;
    }
    uint32_t survivors = lrc_survivors(left, at, length);
    test(lrc_verify(code, left, length) == LRC_OK, "survivors of a stripe");
    uint32_t all = lrc_rebuild_many(code, left, targets, rooms, statuses, count, length);
    for (size_t i = 0; i < count; i++) {
        uint32_t status = lrc_rebuild(code, left, targets[i], wanted, length);
        test(status == LRC_OK || status == LRC_SEVERAL, "an answer");
        test(status == statuses[i], "the same answer among many");
        if (status > greatest)
            greatest = status;
        if (status == LRC_OK) {
            rebuilt++;
            test(memcmp(wanted, store[targets[i]], length) == 0, "the rebuilt fragment");
            test(memcmp(rooms[i], store[targets[i]], length) == 0, "the rebuilt fragment among many");
        }
        by_plan(code, survivors, at, (int)targets[i], length, status);
    }
    test(all == greatest, "the greatest status");
    return rebuilt;
}

static void lose_each(enum lrc_code code, int many, size_t length)
{
    int places = code == LRC_6_2_2 ? 10 : 16;
    unsigned sets = 0, whole = 0;
    for (uint32_t lost = 0; lost < UINT32_C(1) << places; lost++)
        if (__builtin_popcount(lost) == many) {
            if (sets++ % STEP != 0)
                continue;
            whole += lose(code, lost, length) == many;
        }
    printf("%s: of %u sets of %d lost fragments %u are rebuilt\n", code == LRC_6_2_2 ? "(6,2,2)" : "(12,2,2)",
           (sets + STEP - 1) / STEP, many, whole);
    test(many > 3 || whole == (sets + STEP - 1) / STEP, "three lost fragments");
}

/* A changed byte, wherever it is, is a contradiction. */
static void change(enum lrc_code code, uint8_t *const fragments[LRC_PLACES], size_t length, size_t position)
{
    const uint8_t *left[LRC_PLACES];
    enum lrc_place targets[2] = {LRC_X0, LRC_X1};
    uint8_t *rooms[2] = {outs[0], outs[1]};
    uint32_t statuses[2];
    store[LRC_Y1][position] ^= 1;
    memcpy(left, fragments, sizeof left);
    test(lrc_verify(code, left, length) == LRC_CONTRADICTION, "no stripe");
    left[LRC_X0] = left[LRC_X1] = NULL;
    test(lrc_rebuild(code, left, LRC_X0, outs[0], length) == LRC_CONTRADICTION, "a contradiction");
    test(lrc_rebuild_many(code, left, targets, rooms, statuses, 2, length) == LRC_CONTRADICTION, "a contradiction for many");
    test(statuses[0] == LRC_CONTRADICTION && statuses[1] == LRC_CONTRADICTION, "a contradiction for each");
    store[LRC_Y1][position] ^= 1;
}

static void refusals(enum lrc_code code, uint8_t *const fragments[LRC_PLACES])
{
    enum { N = 100 };
    const uint8_t number = (uint8_t)code;
    const uint8_t *left[LRC_PLACES];
    lrc_bytes at[LRC_PLACES], data[13];
    lrc_plan plan;
    memset(&plan, 7, sizeof plan);
    uint8_t targets[4] = {LRC_X0, LRC_NO_PLACE, LRC_NO_PLACE, LRC_NO_PLACE}, some = 0;
    uint32_t statuses[4] = {9, 9, 9, 9};
    memset(outs, 7, sizeof outs);
    memcpy(left, fragments, sizeof left);
    test(lrc_rebuild(code, left, LRC_X0, outs[0], N) == LRC_BAD_ARGUMENT, "a target that survives");
    left[LRC_X0] = NULL;
    test(lrc_rebuild(code, left, LRC_X0, outs[0], 0) == LRC_BAD_ARGUMENT, "no length");
    uint32_t survivors = lrc_survivors(left, at, N);
    test(lrc_rebuild_into(2, survivors, at, LRC_X0, outs[0], N) == LRC_BAD_ARGUMENT, "a code");
    test(lrc_rebuild_into(number, survivors, at, 16, outs[0], N) == LRC_BAD_ARGUMENT, "a place");
    test(lrc_rebuild_into(number, survivors, at, LRC_X3, outs[0], N) == LRC_BAD_ARGUMENT,
         "a place of the other code, or one that survives");
    test(lrc_plan_into(number, survivors, LRC_X1, &plan) == LRC_BAD_ARGUMENT, "a plan of a survivor");
    test(lrc_plan_into(2, survivors, LRC_X0, &plan) == LRC_BAD_ARGUMENT, "a plan of no code");
    test(lrc_plan_into(number, survivors, 16, &plan) == LRC_BAD_ARGUMENT, "a plan of no place");
    untouched((const uint8_t *)&plan, sizeof plan);
    test(lrc_verify_at(2, survivors, at, N) == LRC_BAD_ARGUMENT, "a code to verify");
    test(lrc_verify_at(0, UINT32_C(1) << LRC_Y5, at, N) == LRC_BAD_ARGUMENT, "a place that the code has not");
    at[LRC_P1].length = N - 1;
    test(lrc_rebuild_into(number, survivors, at, LRC_X0, outs[0], N) == LRC_BAD_ARGUMENT, "a length");
    test(lrc_verify_at(number, survivors, at, N) == LRC_BAD_ARGUMENT, "a length to verify");
    test(lrc_rebuild_many_into(number, survivors, at, N, targets, outs[0], N, &some, 0, &some, 0, &some, 0, statuses) == LRC_BAD_ARGUMENT,
         "a length for many");
    at[LRC_P1].length = N;
    test(lrc_rebuild_many_into(number, survivors, at, N, targets, outs[0], N - 1, &some, 0, &some, 0, &some, 0, statuses)
         == LRC_BAD_ARGUMENT, "a room");
    test(lrc_rebuild_many_into(number, survivors, at, 0, targets, outs[0], 0, &some, 0, &some, 0, &some, 0, statuses) == LRC_BAD_ARGUMENT,
         "no length for many");
    targets[3] = LRC_X1;
    test(lrc_rebuild_many_into(number, survivors, at, N, targets, outs[0], N, &some, 0, &some, 0, outs[3], N, statuses) == LRC_BAD_ARGUMENT,
         "a target among many that survives");
    test(statuses[0] == 9 && statuses[3] == 9, "no status written");
    test(lrc_add(outs[0], N, store[0], N - 1) == LRC_BAD_ARGUMENT, "add");
    test(lrc_scale_add(outs[0], N, 3, store[0], N + 1) == LRC_BAD_ARGUMENT, "scale_add");
    size_t count = lrc_data_count(code);
    for (size_t i = 0; i < 13; i++)
        data[i] = at[LRC_X1];
    test(lrc_encode_into(number, data, count + 1, outs[0], N, outs[1], N, outs[2], N, outs[3], N) == LRC_BAD_ARGUMENT, "a source too many");
    test(lrc_encode_into(number, data, count, outs[0], N, outs[1], N, outs[2], N, outs[3], N - 1) == LRC_BAD_ARGUMENT, "a parity's length");
    const uint8_t coefficients[3] = {1, 2, 0};
    data[2].length = 5;
    test(lrc_combine(coefficients, 3, data, 2, outs[0], N) == LRC_BAD_ARGUMENT, "another number of sources");
    test(lrc_combine(coefficients, 2, data, 2, outs[0], N + 1) == LRC_BAD_ARGUMENT, "another length");
    for (int i = 0; i < 4; i++)
        untouched(outs[i], N + 1);
    test(lrc_combine(coefficients, 3, data, 3, outs[0], N) == LRC_OK, "a source that is not read");
    for (size_t k = 0; k < N; k++)
        test(outs[0][k] == (store[LRC_X1][k] ^ product(2, store[LRC_X1][k])), "combine");
    targets[3] = LRC_NO_PLACE;
    test(lrc_rebuild_many_into(number, survivors, at, N, targets, outs[1], N, &some, 0, &some, 0, &some, 0, statuses) == LRC_OK,
         "one of four");
    test(memcmp(outs[1], store[LRC_X0], N) == 0 && statuses[0] == LRC_OK && statuses[1] == LRC_OK, "one of four rebuilt");
}

/* What the calls over arrays of pointers refuse, with nothing written; left[LRC_X0] and left[LRC_Y0] are lost. */
static void inline_refusals(enum lrc_code code, uint8_t *const fragments[LRC_PLACES])
{
    enum { N = 100 };
    static const unsigned codes[] = {2, 256, 257}, places[] = {16, 255, 256, LRC_X1};
    const uint8_t *left[LRC_PLACES];
    uint8_t *stripe[LRC_PLACES], *rooms[5] = {outs[0], outs[1], outs[2], outs[3], outs[4]};
    enum lrc_place targets[5] = {LRC_Y0, LRC_Y0, LRC_Y0, LRC_Y0, LRC_Y0};
    uint32_t statuses[5];
    memset(outs, 7, sizeof outs);
    memset(statuses, 7, sizeof statuses);
    memcpy(left, fragments, sizeof left);
    left[LRC_X0] = left[LRC_Y0] = NULL;
    for (size_t i = 0; i < sizeof codes / sizeof *codes; i++) {
        enum lrc_code other = (enum lrc_code)codes[i];
        test(lrc_rebuild(other, left, LRC_X0, outs[0], N) == LRC_BAD_ARGUMENT, "no code");
        test(lrc_rebuild_many(other, left, targets, rooms, statuses, 5, N) == LRC_BAD_ARGUMENT, "no code for many");
        test(lrc_verify(other, left, N) == LRC_BAD_ARGUMENT, "no code to verify");
        for (int p = 0; p < LRC_PLACES; p++)
            stripe[p] = outs[p % 5];
        test(lrc_encode(other, stripe, N) == LRC_BAD_ARGUMENT, "no code to encode");
    }
    for (size_t i = 0; i < sizeof places / sizeof *places; i++) {
        enum lrc_place place = (enum lrc_place)places[i];
        test(lrc_rebuild(code, left, place, outs[0], N) == LRC_BAD_ARGUMENT, "no lost place");
        for (int at = 0; at < 5; at++) {
            targets[at] = place;
            test(lrc_rebuild_many(code, left, targets, rooms, statuses, 5, N) == LRC_BAD_ARGUMENT, "no lost place among many");
            targets[at] = LRC_Y0;
        }
    }
    if (code == LRC_6_2_2)
        test(lrc_rebuild(code, left, LRC_Y5, outs[0], N) == LRC_BAD_ARGUMENT, "a place of the other code");
    test(lrc_rebuild(code, left, LRC_X0, NULL, N) == LRC_BAD_ARGUMENT, "no room");
    for (int at = 0; at < 5; at++) {
        rooms[at] = NULL;
        test(lrc_rebuild_many(code, left, targets, rooms, statuses, 5, N) == LRC_BAD_ARGUMENT, "no room among many");
        rooms[at] = outs[at];
    }
    test(lrc_rebuild_many(code, left, targets, rooms, statuses, 0, N) == LRC_BAD_ARGUMENT, "no target");
    test(lrc_rebuild_many(code, left, targets, rooms, statuses, 5, 0) == LRC_BAD_ARGUMENT, "no length for many");
    for (int p = 0; p < LRC_PLACES; p++) {
        if (!lrc_has_place(code, (enum lrc_place)p))
            continue;
        for (int q = 0; q < LRC_PLACES; q++)
            stripe[q] = q >= LRC_PX && q <= LRC_P1 ? outs[q - LRC_PX] : fragments[q];
        stripe[p] = NULL;
        test(lrc_encode(code, stripe, N) == LRC_BAD_ARGUMENT, "a fragment to encode that is not there");
    }
    for (int i = 0; i < 5; i++) {
        untouched(outs[i], N + 1);
        untouched((const uint8_t *)&statuses[i], sizeof *statuses);
    }
}

/* Five targets, of which one is not determined: the first, one after it, or the fifth. */
static void five_targets(enum lrc_code code, uint8_t *const fragments[LRC_PLACES])
{
    enum { N = 100 };
    static const enum lrc_place lost[] = {LRC_X0, LRC_X1, LRC_X2, LRC_PX, LRC_P0, LRC_P1, LRC_Y0};
    const uint8_t *left[LRC_PLACES];
    uint8_t *rooms[5] = {outs[0], outs[1], outs[2], outs[3], outs[4]};
    memcpy(left, fragments, sizeof left);
    for (size_t i = 0; i < sizeof lost / sizeof *lost; i++)
        left[lost[i]] = NULL;
    for (int fault = 0; fault < 6; fault++) {
        enum lrc_place targets[5];
        uint32_t statuses[5] = {9, 9, 9, 9, 9};
        for (int i = 0; i < 5; i++)
            targets[i] = i == fault ? LRC_X0 : LRC_Y0;
        uint32_t all = lrc_rebuild_many(code, left, targets, rooms, statuses, 5, N);
        test(all == (fault < 5 ? LRC_SEVERAL : LRC_OK), "the greatest status of five");
        for (int i = 0; i < 5; i++) {
            test(statuses[i] == (i == fault ? LRC_SEVERAL : LRC_OK), "the status of one of five");
            test(i == fault || memcmp(outs[i], store[LRC_Y0], N) == 0, "one of five rebuilt");
        }
    }
}

/* Calls of no bytes, and bits that are no place's. */
static void edges(enum lrc_code code, uint8_t *const fragments[LRC_PLACES])
{
    enum { N = 100 };
    const uint8_t number = (uint8_t)code;
    const uint8_t *left[LRC_PLACES];
    lrc_bytes at[LRC_PLACES];
    lrc_plan plan, same;
    uint8_t *stripe[LRC_PLACES];
    memcpy(left, fragments, sizeof left);
    memcpy(stripe, fragments, sizeof stripe);
    left[LRC_X0] = NULL;
    memset(&same, 7, sizeof same);
    memset(&plan, 7, sizeof plan);
    uint32_t survivors = lrc_survivors(left, at, N), high = UINT32_C(0xffff0000);
    test(lrc_plan_into(number, survivors, LRC_X0, &plan) == LRC_OK, "a plan");
    test(lrc_plan_into(number, survivors | high, LRC_X0, &same) == LRC_OK, "a plan with higher bits");
    test(memcmp(&plan, &same, sizeof plan) == 0, "the same plan");
    test(lrc_rebuild_into(number, survivors | high, at, LRC_X0, outs[0], N) == LRC_OK, "higher bits");
    test(memcmp(outs[0], store[LRC_X0], N) == 0, "rebuilt with higher bits");
    test(lrc_verify_at(number, survivors | high, at, N) == LRC_OK, "verified with higher bits");
    memset(outs, 7, sizeof outs);
    survivors = lrc_survivors(left, at, 0);
    test(lrc_add(outs[0], 0, store[0], 0) == LRC_OK && lrc_scale_add(outs[0], 0, 3, store[0], 0) == LRC_OK, "sums of no bytes");
    test(lrc_combine(plan.value, LRC_PLACES, at, LRC_PLACES, outs[0], 0) == LRC_OK, "no bytes combined");
    test(lrc_apply(plan.value, at, outs[0], 0) == LRC_OK, "a plan of no bytes");
    test(lrc_verify(code, left, 0) == LRC_OK, "no bytes verified");
    test(lrc_encode(code, stripe, 0) == LRC_OK, "no bytes encoded");
    untouched(outs[0], N);
    test(lrc_data_place(code, lrc_data_count(code)) == LRC_PLACES, "no more data fragments");
    test(lrc_data_place(code, SIZE_MAX) == LRC_PLACES, "no data fragment");
}

/* The places of a target's local group, with its parity; 0 of a global parity. */
static uint32_t group_of(enum lrc_code code, int target)
{
    uint32_t groups[2] = {UINT32_C(1) << LRC_PX, UINT32_C(1) << LRC_PY};
    size_t count = lrc_data_count(code);
    for (size_t i = 0; i < count; i++)
        groups[i < count / 2 ? 0 : 1] |= UINT32_C(1) << lrc_data_place(code, i);
    for (int g = 0; g < 2; g++)
        if (groups[g] >> target & 1)
            return groups[g];
    return 0;
}

/* How many survivors a plan reads: half of the data where the others of the target's group survive, and else as many as there are
 * data fragments; of every set of lost fragments that determines the target. */
static void reads(enum lrc_code code)
{
    uint32_t all = code == LRC_6_2_2 ? 0x3ff : 0xffff;
    unsigned plans = 0, local = 0;
    for (int p = 0; p < LRC_PLACES; p++) {
        uint32_t group = group_of(code, p), own = UINT32_C(1) << p, found = 0;
        if (group == 0)
            continue;
        test(lrc_reads_into((uint8_t)code, own, all & ~own, &found) == LRC_OK && found == (group & ~own), "a group's others are read");
        test(lrc_reads_into((uint8_t)code, own, group & ~own, &found) == LRC_OK && found == (group & ~own), "a group's others alone");
    }
    for (uint32_t lost = 1; lost <= all; lost += STEP)
        for (int target = 0; target < LRC_PLACES; target++) {
            lrc_plan plan;
            if ((lost >> target & 1) == 0 || lrc_plan_into((uint8_t)code, all & ~lost, (uint8_t)target, &plan) != LRC_OK)
                continue;
            uint32_t group = group_of(code, target);
            int whole = group != 0 && (lost & group) == UINT32_C(1) << target;
            size_t wants = whole ? lrc_data_count(code) / 2 : lrc_data_count(code);
            test(lrc_plan_reads(&plan) == wants, "how many survivors a plan reads");
            plans++;
            local += whole != 0;
        }
    printf("%s: of %u plans %u read a group alone\n", code == LRC_6_2_2 ? "(6,2,2)" : "(12,2,2)", plans, local);
}

#ifndef SHORT
/* The stack of one call, painted before. */
enum { STACK = 262144, PROMISED = 16384 };
static uint8_t stack[STACK];
static ucontext_t caller, called;

/* What the calls are given: a stripe of each code with fragments of `size` bytes, of which four are lost. */
static enum lrc_code its_code;
static size_t size;
static uint32_t lasting, answers[4];
static const uint8_t *remaining[LRC_PLACES];
static lrc_bytes table[LRC_PLACES];
static lrc_plan row;
static const uint32_t costs[LRC_PLACES] = {1, 2, 3};
static const enum lrc_place four[4] = {LRC_X0, LRC_Y1, LRC_P0, LRC_P1};
static uint8_t *const four_rooms[4] = {outs[0], outs[1], outs[2], outs[3]};
static uint8_t *whole_stripe[LRC_PLACES];

static void call_add(void) { lrc_add(outs[0], size, store[0], size); }
static void call_scale_add(void) { lrc_scale_add(outs[0], size, 3, store[0], size); }
static void call_combine(void) { lrc_combine(row.value, LRC_PLACES, table, LRC_PLACES, outs[0], size); }
static void call_encode(void) { lrc_encode(its_code, whole_stripe, size); }
static void call_plan(void) { lrc_plan_into((uint8_t)its_code, lasting, LRC_X0, &row); }
static void call_apply(void) { lrc_apply(row.value, table, outs[0], size); }
static void call_rebuild(void) { lrc_rebuild(its_code, remaining, LRC_X0, outs[0], size); }
static void call_rebuild_many(void) { lrc_rebuild_many(its_code, remaining, four, four_rooms, answers, 4, size); }
static void call_verify(void) { lrc_verify(its_code, remaining, size); }
static void call_update(void) { lrc_update(its_code, LRC_X1, store[LRC_X0], four_rooms, size); }
static void call_reads(void) { lrc_cheapest_reads_into((uint8_t)its_code, UINT32_C(1) << LRC_X0, lasting, costs, answers); }

/* How many bytes of stack a call uses. */
static size_t used(void (*call)(void))
{
    size_t clean = 0;
    memset(stack, 0xa5, sizeof stack);
    test(getcontext(&called) == 0, "a context");
    called.uc_stack.ss_sp = stack;
    called.uc_stack.ss_size = sizeof stack;
    called.uc_link = &caller;
    makecontext(&called, call, 0);
    test(swapcontext(&caller, &called) == 0, "a call on a stack of its own");
    while (clean < sizeof stack && stack[clean] == 0xa5)
        clean++;
    return sizeof stack - clean;
}

/* No call uses as much stack as the header promises at most. */
static void stacks(enum lrc_code code, uint8_t *const fragments[LRC_PLACES], size_t length)
{
    static void (*const calls[])(void) = {call_add, call_scale_add, call_combine, call_encode, call_plan,
                                          call_apply, call_rebuild, call_rebuild_many, call_verify, call_update, call_reads};
    size_t most = 0;
    its_code = code;
    size = length;
    memcpy(whole_stripe, fragments, sizeof whole_stripe);
    memcpy(remaining, fragments, sizeof remaining);
    for (int i = 0; i < 4; i++)
        remaining[four[i]] = NULL;
    lasting = lrc_survivors(remaining, table, length);
    call_plan();
    for (size_t i = 0; i < sizeof calls / sizeof *calls; i++) {
        size_t bytes = used(calls[i]);
        test(bytes < PROMISED, "the stack of a call");
        if (bytes > most)
            most = bytes;
    }
    test(most > 0, "some stack");
    printf("%s: a call over %zu bytes uses %zu bytes of stack at most\n", code == LRC_6_2_2 ? "(6,2,2)" : "(12,2,2)", length, most);
}
#endif

/* Stripes of one data byte, whose parities are the coefficients of its place, a product and an inverse that are known. */
static void known(void)
{
    static const struct {
        enum lrc_code code;
        enum lrc_place place;
        uint8_t parities[4];
    } rows[] = {
        {LRC_6_2_2, LRC_X0, {0x01, 0x00, 0x04, 0x10}},
        {LRC_6_2_2, LRC_Y2, {0x00, 0x01, 0x03, 0x05}},
        {LRC_12_2_2, LRC_X0, {0x01, 0x00, 0x10, 0x1d}},
    };
    uint8_t sum[1] = {0x80}, two = 0x02, byte = 0x80, *fragments[LRC_PLACES];
    for (size_t i = 0; i < sizeof rows / sizeof *rows; i++) {
        for (int p = 0; p < LRC_PLACES; p++) {
            fragments[p] = store[p];
            store[p][0] = p == (int)rows[i].place;
        }
        test(lrc_encode(rows[i].code, fragments, 1) == LRC_OK, "a known stripe");
        for (int r = 0; r < 4; r++)
            test(store[LRC_PX + r][0] == rows[i].parities[r], "a known parity");
    }
    test(lrc_scale_add(sum, 1, two, &byte, 1) == LRC_OK && sum[0] == 0x9d, "a known product");
    test(lrc_scale_add(sum, 1, 0x8e, &two, 1) == LRC_OK && sum[0] == 0x9c, "a known inverse");
}

static void names(void)
{
    test(lrc_version() == LRC_VERSION_NUMBER, "the version");
    for (unsigned p = 0; p < LRC_PLACES; p++)
        test(lrc_place_named(lrc_place_name((enum lrc_place)p)) == (enum lrc_place)p, "a place's name");
    test(lrc_place_named("x6") == LRC_PLACES && lrc_place_named("") == LRC_PLACES && lrc_place_named("x") == LRC_PLACES, "no place's name");
    test(lrc_place_named("x00") == LRC_PLACES && strcmp(lrc_place_name(LRC_PLACES), "") == 0, "no place's name");
    for (uint32_t a = 0; a < 5; a++)
        for (uint32_t b = 0; b < a; b++)
            test(strcmp(lrc_status_text(a), lrc_status_text(b)) != 0, "texts of statuses");
}

int main(void)
{
    // Around blocks, a window of 2,304 bytes, and three windows.
    static const size_t lengths[] = {1, 2, 31, 32, 33, 127, 129, 191, 193, 2303, 2304, 2305, 6911, 6913,
#ifndef SHORT
                                     65536, 65537,
#endif
                                     MOST};
    uint8_t *fragments[LRC_PLACES];
    names();
    known();
    for (unsigned c = LRC_6_2_2; c <= LRC_12_2_2; c++) {
        enum lrc_code code = (enum lrc_code)c;
        for (size_t i = 0; i < sizeof lengths / sizeof *lengths; i++) {
            make(code, lengths[i], fragments);
            test(lrc_verify(code, LRC_READ(fragments), lengths[i]) == LRC_OK, "a stripe");
            lose(code, 1u << LRC_X0 | 1u << LRC_X1 | 1u << LRC_PX, lengths[i]);
            lose(code, 1u << LRC_X0 | 1u << LRC_Y1 | 1u << LRC_X2 | 1u << LRC_P0 | 1u << LRC_P1, lengths[i]);
            change(code, fragments, lengths[i], lengths[i] - 1);
            change(code, fragments, lengths[i], lengths[i] / 2);
        }
        make(code, 100, fragments);
        lose_each(code, 3, 100);
        lose_each(code, 4, 100);
        refusals(code, fragments);
        make(code, 100, fragments);
        inline_refusals(code, fragments);
        five_targets(code, fragments);
        edges(code, fragments);
        reads(code);
#ifndef SHORT
        stacks(code, fragments, 100);
        make(code, MOST, fragments);
        stacks(code, fragments, MOST);
#endif
    }
    printf("%lu tests passed\n", tests);
    return 0;
}
