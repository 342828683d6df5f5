/* Asks which verdicts of a mission of 8 states to strike when one reading was bad, for the rule F[1,3] s0, named 7; then looks what one did change. */
#include <inttypes.h>
#include <stdio.h>
#include <string.h>

#include "juntreak.h"

#define STATES 8

static const char text[] = "7: F[1,3] s0\n";

static uint8_t table[JUNTREAK_TABLE_BYTES];
static uint64_t scratch[JUNTREAK_SCRATCH_WORDS];

static int refused(const char *what, uint32_t number)
{
    fprintf(stderr, "%s %" PRIu32 "\n", what, number);
    return 1;
}

static void reach(uint64_t tick)
{
    uint64_t range[2];
    uint32_t answer = juntreak_reach(table, 0, STATES, tick, range);

    printf("tick %" PRIu64 " misread: ", tick);
    if (JUNTREAK_REACH_NUMBER(answer) != JUNTREAK_OK)
        printf("refused with %" PRIu32 "\n", JUNTREAK_REACH_NUMBER(answer));
    else if (JUNTREAK_REACH_RANGE(answer))
        printf("strike %" PRIu64 " to %" PRIu64 "\n", range[0], range[1]);
    else
        printf("no verdict changes\n");
}

static int verdicts(const char *name, const uint32_t states[STATES])
{
    uint64_t out[JUNTREAK_WHOLE_WORDS(STATES)];
    uint32_t number = juntreak_verdicts(table, 0, states, STATES, scratch, JUNTREAK_SCRATCH_WORDS, out, JUNTREAK_WHOLE_WORDS(STATES));
    size_t t;

    if (number != JUNTREAK_OK)
        return refused("verdicts", number);
    printf("%s ", name);
    for (t = 0; t < STATES; t++)
        printf("%u", JUNTREAK_VERDICT(out, t));
    printf("\n");
    return 0;
}

int main(void)
{
    static const uint64_t ticks[] = {0, 2, 5, 8};
    uint32_t states[STATES] = {0, 0, 1, 0, 0, 1, 0, 0};
    uint64_t answer;
    size_t i;

    answer = juntreak_read_text((const uint8_t *)text, strlen(text), table);
    if (answer != JUNTREAK_OK)
        return refused("read", JUNTREAK_TEXT_NUMBER(answer));
    for (i = 0; i < sizeof ticks / sizeof ticks[0]; i++)
        reach(ticks[i]);
    if (verdicts("verdicts as read:  ", states) != 0)
        return 1;
    states[5] = 0;
    return verdicts("with tick 5 cleared:", states);
}
