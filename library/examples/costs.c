/* Prints what it costs to rebuild lost fragments: for each lost place how many of the survivors its plan reads, and how many checks
 * the survivors have.
 *
 *     costs CODE PLACE..     as costs 6-2-2 x0 x1
 *
 *     cc -o costs costs.c $(pkg-config --cflags --libs lrc) -Wl,-rpath,$(pkg-config --variable=libdir lrc) */
#include <lrc.h>
#include <stdio.h>
#include <string.h>

int main(int count, char **words)
{
    if (count < 3 || (strcmp(words[1], "6-2-2") != 0 && strcmp(words[1], "12-2-2") != 0)) {
        fprintf(stderr, "costs 6-2-2 PLACE.. | costs 12-2-2 PLACE..\n");
        return 2;
    }
    enum lrc_code code = strcmp(words[1], "12-2-2") == 0 ? LRC_12_2_2 : LRC_6_2_2;
    uint32_t survivors = 0;
    for (int p = 0; p < LRC_PLACES; p++)
        if (lrc_has_place(code, (enum lrc_place)p))
            survivors |= UINT32_C(1) << p;
    for (int i = 2; i < count; i++) {
        enum lrc_place lost = lrc_place_named(words[i]);
        if (!lrc_has_place(code, lost)) {
            fprintf(stderr, "costs: the code has no place %s\n", words[i]);
            return 2;
        }
        survivors &= ~(UINT32_C(1) << lost);
    }
    for (int i = 2; i < count; i++) {
        lrc_plan plan;
        uint32_t status = lrc_plan_into((uint8_t)code, survivors, (uint8_t)lrc_place_named(words[i]), &plan);
        if (status != LRC_OK) {
            printf("%s: %s\n", words[i], lrc_status_text(status));
            continue;
        }
        printf("%s: reads %u:", words[i], lrc_plan_reads(&plan));
        for (int p = 0; p < LRC_PLACES; p++)
            if (plan.value[p] != 0)
                printf(" %s", lrc_place_name((enum lrc_place)p));
        printf("; %u checks\n", lrc_plan_checks(&plan));
    }
    return 0;
}
