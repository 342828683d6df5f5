/* Watches the rule F[1,3] s0, named 7, and waits for the interrupt of the status
 * registers: after each call it looks at one byte, and only if that is set does
 * it ask whether a no was given, or a call refused. */
#include <inttypes.h>
#include <stdio.h>

#include "juntreak.h"

static const char text[] = "7: F[1,3] s0\n";

#define BLOCKS 4

static const uint32_t first[] = {1, 0, 1, 0};
static const uint32_t second[] = {0, 0, 0, 1};
static const uint32_t burst[JUNTREAK_MAX_BLOCK + 1]; /* one state too many */
static const uint32_t last[] = {1, 1, 1, 0};

static const struct {
    const uint32_t *states;
    size_t k;
} blocks[BLOCKS] = {{first, 4}, {second, 4}, {burst, JUNTREAK_MAX_BLOCK + 1}, {last, 4}};

/* The bits that the program waits for. */
#define AWAITED (JUNTREAK_STATUS_NO | JUNTREAK_STATUS_REFUSED)

static uint8_t registers[JUNTREAK_STATUS_BYTES]; /* zero at the start */
static uint8_t table[JUNTREAK_TABLE_BYTES];
static uint8_t session[JUNTREAK_SESSION_BYTES];
static uint32_t history[JUNTREAK_HISTORY_WORDS];
static uint64_t scratch[JUNTREAK_SCRATCH_WORDS];
static uint64_t out[JUNTREAK_CLOSE_WORDS];

static uint8_t byte_at(size_t place)
{
    return (uint8_t)JUNTREAK_REGISTER_READ_VALUE(juntreak_register_read(registers, place));
}

static uint64_t first_no(void)
{
    uint64_t tick = 0;
    unsigned i;

    for (i = 0; i < 8; i++)
        tick |= (uint64_t)byte_at(JUNTREAK_FIRST_NO_AT + i) << (8 * i);
    return tick;
}

/* Tells of the interrupt, if there is one, and clears the bits that raised it. */
static void tell(void)
{
    uint8_t seen;

    if (!byte_at(JUNTREAK_INTERRUPT_AT)) {
        printf("no interrupt\n");
        return;
    }
    printf("interrupt");
    seen = byte_at(JUNTREAK_STATUS_AT) & AWAITED;
    if (seen & JUNTREAK_STATUS_NO)
        printf(", first no at tick %" PRIu64, first_no());
    if (seen & JUNTREAK_STATUS_REFUSED)
        printf(", refused with %u", (unsigned)byte_at(JUNTREAK_REFUSAL_AT));
    printf("\n");
    juntreak_register_write(registers, JUNTREAK_STATUS_AT, seen);
}

static int refused(const char *what, uint32_t number)
{
    fprintf(stderr, "%s %" PRIu32 "\n", what, number);
    return 1;
}

int main(void)
{
    uint64_t typed;
    uint32_t number;
    unsigned i;

    typed = juntreak_read_text((const uint8_t *)text, sizeof text - 1, table);
    if (typed != JUNTREAK_OK)
        return refused("read_text", JUNTREAK_TEXT_NUMBER(typed));
    number = juntreak_register_write(registers, JUNTREAK_ENABLE_AT, AWAITED);
    if (number != JUNTREAK_OK)
        return refused("register_write", number);
    number = juntreak_open_noted(registers, table, 0, session);
    if (number != JUNTREAK_OK)
        return refused("open", number);

    /* The registers tell what the calls came to; the answers are not needed. */
    for (i = 0; i < BLOCKS; i++) {
        juntreak_feed_noted(
            registers, session, blocks[i].states, blocks[i].k, history, JUNTREAK_HISTORY_WORDS,
            scratch, JUNTREAK_SCRATCH_WORDS, out, JUNTREAK_CLOSE_WORDS);
        printf("feed %u: ", i + 1);
        tell();
    }
    juntreak_close_noted(
        registers, session, history, JUNTREAK_HISTORY_WORDS,
        scratch, JUNTREAK_SCRATCH_WORDS, out, JUNTREAK_CLOSE_WORDS);
    printf("close: ");
    tell();
    return 0;
}
