/* Ends a session of an earlier library, under the old delay, and beside it one
 * of this library that was fed the same states. */
#include <inttypes.h>
#include <stdio.h>

#include "juntreak.h"

/* Its delay is 4. The old one was 5. */
static const char text[] = "7: (F[0,3] s2) U[0,2] s1\n";

#define STATES 8
#define OLD_DELAY 5

static const uint32_t states[STATES] = {4, 0, 0, 2, 4, 0, 0, 2};

static uint8_t table[JUNTREAK_TABLE_BYTES];
static uint8_t session[JUNTREAK_SESSION_BYTES];
static uint32_t history[JUNTREAK_HISTORY_WORDS];
static uint64_t scratch[JUNTREAK_SCRATCH_WORDS];
static uint64_t out[JUNTREAK_CLOSE_WORDS];

/* The tick of the next verdict. */
static uint64_t tick;

/* Prints the verdicts of a feed or close; answers the number. */
static uint32_t print_verdicts(const char *call, uint64_t answer)
{
    uint32_t count = JUNTREAK_CALL_COUNT(answer);
    uint32_t i;

    printf("%s, %" PRIu32 " verdicts:\n", call, count);
    for (i = 0; i < count; i++) {
        printf("%u %" PRIu64 " %u\n", JUNTREAK_RULE_NAME(session, 0), tick, JUNTREAK_VERDICT(out, i));
        tick++;
    }
    return JUNTREAK_CALL_NUMBER(answer);
}

static int refused(const char *what, uint32_t number)
{
    fprintf(stderr, "%s %" PRIu32 "\n", what, number);
    return 1;
}

/* What the earlier library left: a session on the rule that has seen all
 * states, and its history with the last five of them. A caller would have kept
 * both, and the verdicts of the first three ticks. Answers the number. */
static uint32_t left_behind(void)
{
    uint32_t number;
    unsigned i;

    number = juntreak_open(table, 0, session);
    session[JUNTREAK_SEEN_AT] = STATES;
    for (i = 0; i < OLD_DELAY; i++)
        history[i] = states[STATES - OLD_DELAY + i];
    tick = STATES - OLD_DELAY;
    return number;
}

int main(void)
{
    uint64_t typed;
    uint32_t number;

    typed = juntreak_read_text((const uint8_t *)text, sizeof text - 1, table);
    if (typed != JUNTREAK_OK)
        return refused("read_text", JUNTREAK_TEXT_NUMBER(typed));

    number = left_behind();
    if (number != JUNTREAK_OK)
        return refused("open", number);
    number = print_verdicts("old session, close_old", juntreak_close_old(
        session, history, JUNTREAK_HISTORY_WORDS,
        scratch, JUNTREAK_SCRATCH_WORDS, out, JUNTREAK_CLOSE_WORDS));
    if (number != JUNTREAK_OK)
        return refused("close_old", number);

    /* The session is now as juntreak_open leaves it. */
    tick = 0;
    number = print_verdicts("new session, feed", juntreak_feed(
        session, states, STATES, history, JUNTREAK_HISTORY_WORDS,
        scratch, JUNTREAK_SCRATCH_WORDS, out, JUNTREAK_CLOSE_WORDS));
    if (number != JUNTREAK_OK)
        return refused("feed", number);
    number = print_verdicts("new session, close", juntreak_close(
        session, history, JUNTREAK_HISTORY_WORDS,
        scratch, JUNTREAK_SCRATCH_WORDS, out, JUNTREAK_CLOSE_WORDS));
    if (number != JUNTREAK_OK)
        return refused("close", number);
    return 0;
}
