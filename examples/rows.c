/* Prints the rows of documents 01 and 02 worked by hand, as the library computes them; examples/rows.txt holds what they should be. */
#include <inttypes.h>
#include <stdio.h>
#include <string.h>

#include "juntreak.h"

static const uint32_t states[] = {2, 2, 1, 0, 2, 3, 0, 0};

static uint8_t session[JUNTREAK_SESSION_BYTES];
static uint32_t history[JUNTREAK_HISTORY_WORDS];
static uint64_t scratch[JUNTREAK_SCRATCH_WORDS];
static uint64_t out[JUNTREAK_CLOSE_WORDS];

/* A table of two signals, p and q, the two constants, and one node over them, which rule 0 watches. */
static void watch(uint8_t table[JUNTREAK_TABLE_BYTES], uint8_t kind, uint8_t lo, uint8_t hi, uint8_t left, uint8_t right)
{
    static const uint8_t operands[] = {1, 0, 0, 0, 0, 0, 0, 0, 1, 1, 0, 0, 0, 0, 0, 0, 2, 0, 0, 0, 0, 0, 0, 0, 3, 0, 0, 0, 0, 0, 0, 0};
    uint8_t *node = table + JUNTREAK_NODE_AT(4);
    uint8_t *rule = table + JUNTREAK_RULE_AT(0);

    memset(table, 0, JUNTREAK_TABLE_BYTES);
    table[JUNTREAK_NODE_COUNT_AT] = 5;
    table[JUNTREAK_RULE_COUNT_AT] = 1;
    memcpy(table + JUNTREAK_NODE_AT(0), operands, sizeof operands);
    node[0] = kind;
    node[2] = lo;
    node[4] = hi;
    node[6] = left;
    node[7] = right;
    rule[0] = 7;
    rule[2] = 4;
}

enum { P, Q, TRUE, FALSE };

static void verdicts(const char *name, uint8_t kind, uint8_t lo, uint8_t hi, uint8_t left, uint8_t right)
{
    uint8_t table[JUNTREAK_TABLE_BYTES];
    size_t t;

    watch(table, kind, lo, hi, left, right);
    printf("%s ", name);
    if (juntreak_verdicts(table, 0, states, 8, scratch, JUNTREAK_SCRATCH_WORDS, out, JUNTREAK_WHOLE_WORDS(8)) != JUNTREAK_OK)
        printf("refused");
    else
        for (t = 0; t < 8; t++)
            printf("%u", JUNTREAK_VERDICT(out, t));
    printf("\n");
}

static void splits(uint16_t v)
{
    uint8_t parts[JUNTREAK_MAX_PARTS];
    uint32_t i, count = JUNTREAK_SPLIT_COUNT(juntreak_split(0, v, parts));

    printf("v %u:", (unsigned)v);
    for (i = 0; i < count; i++)
        printf(" %u", (unsigned)parts[i]);
    printf("\n");
}

static void moves(uint16_t v)
{
    uint64_t answer = juntreak_moves(0, v);

    printf("v %u: b %u leftover %u, %u moves\n", (unsigned)v, (unsigned)JUNTREAK_MOVES_EXPONENT(answer),
           (unsigned)JUNTREAK_MOVES_LEFTOVER(answer), (unsigned)JUNTREAK_MOVES_COUNT(answer));
}

static void told(const char *call, uint64_t answer, uint32_t kept)
{
    uint32_t i;

    printf("%s: number %u, %u verdicts, word %" PRIu64 ", kept", call, (unsigned)JUNTREAK_CALL_NUMBER(answer), (unsigned)JUNTREAK_CALL_COUNT(answer), out[0]);
    for (i = 0; i < kept; i++)
        printf(" %" PRIu32, history[i]);
    printf("\n");
}

int main(void)
{
    uint8_t table[JUNTREAK_TABLE_BYTES];

    verdicts("F[1,3]p", 7, 1, 3, P, 0);
    verdicts("G[1,2]q", 8, 1, 2, Q, 0);
    verdicts("q U[0,3] p", 9, 0, 3, Q, P);
    verdicts("p U[2,2] q", 9, 2, 2, P, Q);
    verdicts("q R[0,1] p", 10, 0, 1, Q, P);
    verdicts("F[2,3]true", 7, 2, 3, TRUE, 0);
    verdicts("G[2,3]false", 8, 2, 3, FALSE, 0);
    splits(0);
    splits(5);
    splits(6);
    splits(13);
    splits(4084);
    splits(JUNTREAK_MAX_INTERVAL);
    moves(5);
    moves(6);
    moves(JUNTREAK_MAX_INTERVAL);
    watch(table, 7, 1, 3, P, 0);
    if (juntreak_open(table, 0, session) != JUNTREAK_OK)
        return 1;
    told("feed of 5", juntreak_feed(session, states, 5, history, JUNTREAK_HISTORY_WORDS, scratch, JUNTREAK_SCRATCH_WORDS, out, JUNTREAK_FEED_WORDS), 3);
    told("feed of 3", juntreak_feed(session, states + 5, 3, history, JUNTREAK_HISTORY_WORDS, scratch, JUNTREAK_SCRATCH_WORDS, out, JUNTREAK_FEED_WORDS), 3);
    told("close", juntreak_close(session, history, JUNTREAK_HISTORY_WORDS, scratch, JUNTREAK_SCRATCH_WORDS, out, JUNTREAK_CLOSE_WORDS), 3);
    return 0;
}
