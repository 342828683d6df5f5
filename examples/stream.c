/* Watches the rule F[1,3] p, named 7, over four states in two blocks. */
#include <inttypes.h>
#include <stdio.h>

#include "juntreak.h"

static const uint8_t book[] = {
    0,  0, 0, 0, 0, 0, 0, 0, 1, 0, 0, 0, /* head */
    1,  0, 0, 0, 0, 0, 0, 0, 2, 0, 0, 0, /* signal 0 */
    7,  0, 1, 0, 3, 0, 1, 0, 3, 0, 0, 0, /* F[1,3] of record 1 */
    11, 7, 0, 0, 0, 0, 2, 0, 0, 0, 0, 0, /* rule 7 watches record 2 */
};

static const uint32_t states[] = {0, 0, 1, 0};

static uint8_t table[JUNTREAK_TABLE_BYTES];
static uint8_t session[JUNTREAK_SESSION_BYTES];
static uint32_t history[JUNTREAK_HISTORY_WORDS];
static uint64_t scratch[JUNTREAK_SCRATCH_WORDS];
static uint64_t out[JUNTREAK_CLOSE_WORDS];

/* The tick of the next verdict. */
static uint64_t tick;

/* Prints the verdicts of a feed or close; answers the number. */
static uint32_t print_verdicts(uint64_t answer)
{
    uint32_t count = JUNTREAK_CALL_COUNT(answer);
    uint32_t i;

    for (i = 0; i < count; i++) {
        printf("%u %" PRIu64 " %u\n", JUNTREAK_RULE_NAME(table, 0), tick, JUNTREAK_VERDICT(out, i));
        tick++;
    }
    return JUNTREAK_CALL_NUMBER(answer);
}

static int refused(const char *what, uint32_t number)
{
    fprintf(stderr, "%s %" PRIu32 "\n", what, number);
    return 1;
}

int main(void)
{
    uint32_t number;
    size_t at;

    number = juntreak_check_book(book, sizeof book);
    if (number != JUNTREAK_OK)
        return refused("check", number);
    number = juntreak_read(book, sizeof book, table);
    if (number != JUNTREAK_OK)
        return refused("read", number);
    number = juntreak_simplify(table);
    if (number != JUNTREAK_OK)
        return refused("simplify", number);
    number = juntreak_open(table, 0, session);
    if (number != JUNTREAK_OK)
        return refused("open", number);

    for (at = 0; at < 4; at += 2) {
        number = print_verdicts(juntreak_feed(
            session, states + at, 2, history, JUNTREAK_HISTORY_WORDS,
            scratch, JUNTREAK_SCRATCH_WORDS, out, JUNTREAK_CLOSE_WORDS));
        if (number != JUNTREAK_OK)
            return refused("feed", number);
    }
    number = print_verdicts(juntreak_close(
        session, history, JUNTREAK_HISTORY_WORDS,
        scratch, JUNTREAK_SCRATCH_WORDS, out, JUNTREAK_CLOSE_WORDS));
    if (number != JUNTREAK_OK)
        return refused("close", number);
    return 0;
}
