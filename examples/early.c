/* Asks after each state whether the rule G[0,600] p, named 7, is already decided at tick 0; p is lost in the third state. */
#include <inttypes.h>
#include <stdio.h>

#include "juntreak.h"

static const uint8_t book[] = {
    0,  0, 0, 0, 0,  0, 0, 0, 1, 0, 0, 0, /* head */
    1,  0, 0, 0, 0,  0, 0, 0, 2, 0, 0, 0, /* signal 0 */
    8,  0, 0, 0, 88, 2, 1, 0, 3, 0, 0, 0, /* G[0,600] of record 1 */
    11, 7, 0, 0, 0,  0, 2, 0, 0, 0, 0, 0, /* rule 7 watches record 2 */
};

static const uint32_t states[] = {1, 1, 0, 1};

static uint8_t table[JUNTREAK_TABLE_BYTES];
static uint64_t scratch[JUNTREAK_EARLY_SCRATCH_WORDS];

static int refused(const char *what, uint32_t number)
{
    fprintf(stderr, "%s %" PRIu32 "\n", what, number);
    return 1;
}

int main(void)
{
    static const char *const names[] = {"no", "yes", "open"};
    uint32_t answer, value;
    size_t n;

    answer = juntreak_read(book, sizeof book, table);
    if (answer != JUNTREAK_OK)
        return refused("read", answer);
    answer = juntreak_delay(table, 0);
    if (JUNTREAK_DELAY_NUMBER(answer) != JUNTREAK_OK)
        return refused("delay", JUNTREAK_DELAY_NUMBER(answer));
    printf("rule %u, delay %" PRIu32 "\n", JUNTREAK_RULE_NAME(table, 0), JUNTREAK_DELAY_TICKS(answer));

    for (n = 1; n <= sizeof states / sizeof states[0]; n++) {
        answer = juntreak_early(table, 0, states, n, 0, scratch, JUNTREAK_EARLY_SCRATCH_WORDS);
        if (JUNTREAK_EARLY_NUMBER(answer) != JUNTREAK_OK)
            return refused("early", JUNTREAK_EARLY_NUMBER(answer));
        value = JUNTREAK_EARLY_VALUE(answer);
        printf("seen %u: %s\n", (unsigned)n, names[value]);
        if (value != JUNTREAK_OPEN)
            break;
    }
    return 0;
}
