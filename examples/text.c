/* Reads rules that were typed as text, and says of a text that is refused why, and where. */
#include <inttypes.h>
#include <stdio.h>
#include <string.h>

#include "juntreak.h"

static const char *const texts[] = {
    "7: F[1,3] s0\n"
    "8: !s1 | G[0,600] (s0 & s2)\n",

    "7: F[1,3] s0\n"
    "8: !s1 | G[0 600] (s0 & s2)\n", /* the comma is missing */

    "7: F[1,3] s0\n"
    "8: !s1 | G[0,6000] (s0 & s2)\n", /* 6000 is above 4095 */
};

static uint8_t table[JUNTREAK_TABLE_BYTES];

static void print_rules(void)
{
    unsigned i, count = table[JUNTREAK_RULE_COUNT_AT];

    printf("%u rules:", count);
    for (i = 0; i < count; i++)
        printf(" %u", JUNTREAK_RULE_NAME(table, i));
    printf("\n");
}

/* The line and the column of a place, both from 1. */
static void print_place(const char *text, uint64_t place)
{
    uint64_t i, line = 1, begin = 0;

    for (i = 0; i < place; i++)
        if (text[i] == '\n') {
            line++;
            begin = i + 1;
        }
    printf("line %" PRIu64 ", column %" PRIu64, line, place - begin + 1);
}

static void print_refusal(const char *text, uint32_t number, uint64_t at)
{
    printf("refused with %" PRIu32 ": ", number);
    if (number == JUNTREAK_SYNTAX || number == JUNTREAK_DEEP)
        print_place(text, at);
    else
        printf("line %" PRIu64, at);
    printf("\n");
}

int main(void)
{
    uint64_t answer;
    size_t i;

    for (i = 0; i < sizeof texts / sizeof texts[0]; i++) {
        answer = juntreak_read_text((const uint8_t *)texts[i], strlen(texts[i]), table);
        if (answer == JUNTREAK_OK)
            print_rules();
        else
            print_refusal(texts[i], JUNTREAK_TEXT_NUMBER(answer), JUNTREAK_TEXT_AT(answer));
    }
    return 0;
}
