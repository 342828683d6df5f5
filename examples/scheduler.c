/* Watches three rules of one book over one stream of states: each block is left
 * with all three, and turns are taken until nobody waits. Tells how many
 * verdicts each rule had, and its first no. */
#include <inttypes.h>
#include <stdio.h>

#include "juntreak.h"

#define RULES 3
#define STATES 12
#define BLOCK 4
#define NONE UINT64_MAX

static const uint8_t book[] = {
    0,  0, 0, 0, 0, 0, 0, 0, 1, 0, 0, 0, /* head */
    1,  0, 0, 0, 0, 0, 0, 0, 2, 0, 0, 0, /* signal 0 */
    1,  1, 0, 0, 0, 0, 0, 0, 3, 0, 0, 0, /* signal 1 */
    7,  0, 1, 0, 3, 0, 1, 0, 4, 0, 0, 0, /* F[1,3] of record 1 */
    8,  0, 0, 0, 2, 0, 2, 0, 5, 0, 0, 0, /* G[0,2] of record 2 */
    9,  0, 0, 0, 3, 0, 2, 1, 6, 0, 0, 0, /* record 2 U[0,3] record 1 */
    11, 7, 0, 0, 0, 0, 3, 0, 7, 0, 0, 0, /* rule 7 watches record 3 */
    11, 8, 0, 0, 0, 0, 4, 0, 8, 0, 0, 0, /* rule 8 watches record 4 */
    11, 9, 0, 0, 0, 0, 5, 0, 0, 0, 0, 0, /* rule 9 watches record 5 */
};

static const uint32_t states[STATES] = {2, 3, 2, 2, 3, 2, 2, 1, 2, 3, 3, 3};

static uint8_t table[JUNTREAK_TABLE_BYTES];
static struct juntreak_record records[RULES];
static uint32_t history[RULES * JUNTREAK_HISTORY_WORDS];
static uint32_t waiting[RULES * JUNTREAK_WAITING_WORDS];
static uint64_t scratch[JUNTREAK_SCRATCH_WORDS];
static uint64_t out[JUNTREAK_CLOSE_WORDS];

/* The place that the last turn gave back; the first begins at record 0. */
static size_t place = RULES;

/* Of each record, the count of its verdicts and the tick of the first no. */
static uint64_t given[RULES];
static uint64_t first_no[RULES];

static void count_verdicts(size_t i, uint32_t count)
{
    uint32_t v;

    for (v = 0; v < count; v++) {
        if (first_no[i] == NONE && !JUNTREAK_VERDICT(out, v))
            first_no[i] = given[i];
        given[i]++;
    }
}

/* Leaves a block with every record; answers the number. */
static uint32_t leave_with_all(const uint32_t *block)
{
    uint32_t number = JUNTREAK_OK;
    size_t i;

    for (i = 0; i < RULES && number == JUNTREAK_OK; i++)
        number = juntreak_leave(records, RULES, table, i, block, BLOCK, waiting, RULES * JUNTREAK_WAITING_WORDS);
    return number;
}

/* Takes turns until nobody waits; answers the number. */
static uint32_t take_turns(void)
{
    uint64_t answer;

    do {
        answer = juntreak_turn(
            records, RULES, table, place, history, RULES * JUNTREAK_HISTORY_WORDS,
            waiting, RULES * JUNTREAK_WAITING_WORDS,
            scratch, JUNTREAK_SCRATCH_WORDS, out, JUNTREAK_CLOSE_WORDS);
        place = JUNTREAK_TURN_NEXT(answer, place);
        if (JUNTREAK_TURN_SERVED(answer))
            count_verdicts(place, JUNTREAK_TURN_COUNT(answer));
    } while (JUNTREAK_TURN_SERVED(answer));
    return JUNTREAK_TURN_NUMBER(answer);
}

static int refused(const char *what, uint32_t number)
{
    fprintf(stderr, "%s %" PRIu32 "\n", what, number);
    return 1;
}

int main(void)
{
    uint64_t answer;
    uint32_t number;
    size_t at, i;

    number = juntreak_read(book, sizeof book, table);
    if (number != JUNTREAK_OK)
        return refused("read", number);
    number = juntreak_simplify(table);
    if (number != JUNTREAK_OK)
        return refused("simplify", number);
    for (i = 0; i < RULES; i++) {
        records[i].rule = i; /* nothing seen, nothing waiting */
        first_no[i] = NONE;
    }

    for (at = 0; at < STATES; at += BLOCK) {
        number = leave_with_all(states + at);
        if (number != JUNTREAK_OK)
            return refused("leave", number);
        number = take_turns();
        if (number != JUNTREAK_OK)
            return refused("turn", number);
    }
    for (i = 0; i < RULES; i++) {
        answer = juntreak_close_record(
            records, RULES, table, i, history, RULES * JUNTREAK_HISTORY_WORDS,
            scratch, JUNTREAK_SCRATCH_WORDS, out, JUNTREAK_CLOSE_WORDS);
        if (JUNTREAK_CALL_NUMBER(answer) != JUNTREAK_OK)
            return refused("close", JUNTREAK_CALL_NUMBER(answer));
        count_verdicts(i, JUNTREAK_CALL_COUNT(answer));
        printf("rule %u: %" PRIu64 " verdicts, ", JUNTREAK_RULE_NAME(table, i), given[i]);
        if (first_no[i] == NONE)
            printf("all yes\n");
        else
            printf("first no at tick %" PRIu64 "\n", first_no[i]);
    }
    return 0;
}
