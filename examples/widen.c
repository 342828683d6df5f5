/* Widens a session of an earlier library that has seen all the states that
 * it could count, and feeds it four more. */
#include <inttypes.h>
#include <stdio.h>

#include "juntreak.h"

static const char text[] = "7: F[1,3] s0\n";

static const uint32_t states[] = {0, 1, 0, 0};

static uint8_t table[JUNTREAK_TABLE_BYTES];
static uint8_t narrow[JUNTREAK_NARROW_BYTES];
static uint8_t session[JUNTREAK_SESSION_BYTES];
static uint8_t again[JUNTREAK_SESSION_BYTES];
static uint32_t history[JUNTREAK_HISTORY_WORDS];
static uint64_t scratch[JUNTREAK_SCRATCH_WORDS];
static uint64_t out[JUNTREAK_CLOSE_WORDS];

/* The tick of the next verdict. */
static uint64_t tick;

/* Prints the verdicts of a feed or close; answers the number. */
static uint32_t print_verdicts(uint64_t answer)
{
    uint32_t count = JUNTREAK_CALL_COUNT(answer);
    uint32_t i;

    for (i = 0; i < count; i++) {
        printf("%u %" PRIu64 " %u\n", JUNTREAK_RULE_NAME(session, 0), tick, JUNTREAK_VERDICT(out, i));
        tick++;
    }
    return JUNTREAK_CALL_NUMBER(answer);
}

static int refused(const char *what, uint32_t number)
{
    fprintf(stderr, "%s %" PRIu32 "\n", what, number);
    return 1;
}

/* What the earlier library left: a session on the rule F[1,3] s0, named 7,
 * that has seen 4294967295 states, and its history with the last three of
 * them. A caller would have kept both. Answers the number. */
static uint32_t left_behind(void)
{
    uint64_t seen = JUNTREAK_MAX_NARROW_SEEN;
    uint32_t number;
    unsigned i;

    number = juntreak_open(table, 0, narrow);
    for (i = 0; i < 8; i++)
        narrow[JUNTREAK_SEEN_AT + i] = (uint8_t)(seen >> (8 * i));
    history[0] = 1;
    history[1] = 0;
    history[2] = 0;
    return number;
}

int main(void)
{
    uint64_t typed;
    uint32_t number;
    size_t at;

    typed = juntreak_read_text((const uint8_t *)text, sizeof text - 1, table);
    if (typed != JUNTREAK_OK)
        return refused("read_text", JUNTREAK_TEXT_NUMBER(typed));
    number = left_behind();
    if (number != JUNTREAK_OK)
        return refused("open", number);

    number = juntreak_widen(narrow, session);
    if (number != JUNTREAK_OK)
        return refused("widen", number);

    /* The last three ticks still wait for their verdicts. */
    tick = JUNTREAK_MAX_NARROW_SEEN - JUNTREAK_DELAY_TICKS(juntreak_delay(session, 0));
    for (at = 0; at < 4; at += 2) {
        number = print_verdicts(juntreak_feed(
            session, states + at, 2, history, JUNTREAK_HISTORY_WORDS,
            scratch, JUNTREAK_SCRATCH_WORDS, out, JUNTREAK_CLOSE_WORDS));
        if (number != JUNTREAK_OK)
            return refused("feed", number);
    }

    /* With 4294967299 states seen it is no narrow session any more. */
    number = juntreak_widen(session, again);
    printf("widened again: refused with %" PRIu32 "\n", number);

    number = print_verdicts(juntreak_close(
        session, history, JUNTREAK_HISTORY_WORDS,
        scratch, JUNTREAK_SCRATCH_WORDS, out, JUNTREAK_CLOSE_WORDS));
    if (number != JUNTREAK_OK)
        return refused("close", number);
    return 0;
}
