/* Opens a session on rules that were typed as text, writes the book that it runs, and reads that back. */
#include <inttypes.h>
#include <stdio.h>
#include <string.h>

#include "juntreak.h"

/* The name 800 takes two bytes of its record: 32 in byte 1, and 3, counted 256 times, in byte 9. */
static const char text[] =
    "7: F[1,3] s0\n"
    "800: !s1 | G[0,600] (s0 & s2)\n";

static uint8_t table[JUNTREAK_TABLE_BYTES];
static uint8_t session[JUNTREAK_SESSION_BYTES];
static uint8_t book[JUNTREAK_WRITTEN_BYTES];
static uint8_t again[JUNTREAK_TABLE_BYTES];

static int refused(const char *what, uint32_t number)
{
    fprintf(stderr, "%s %" PRIu32 "\n", what, number);
    return 1;
}

/* The bytes of one record. */
static void print_record(uint32_t number)
{
    const uint8_t *record = book + JUNTREAK_RECORD_BYTES * number;
    unsigned i;

    printf("%2" PRIu32 ":", number);
    for (i = 0; i < JUNTREAK_RECORD_BYTES; i++)
        printf(" %3u", record[i]);
    printf("\n");
}

int main(void)
{
    uint64_t typed;
    uint32_t number, answer, length, i;

    typed = juntreak_read_text((const uint8_t *)text, strlen(text), table);
    if (typed != JUNTREAK_OK)
        return refused("read_text", JUNTREAK_TEXT_NUMBER(typed));
    number = juntreak_open(table, 0, session);
    if (number != JUNTREAK_OK)
        return refused("open", number);

    /* The session's bytes begin with its table. */
    answer = juntreak_write(session, book, sizeof book);
    if (JUNTREAK_WRITE_NUMBER(answer) != JUNTREAK_OK)
        return refused("write", JUNTREAK_WRITE_NUMBER(answer));
    length = JUNTREAK_WRITE_LENGTH(answer);
    printf("%" PRIu32 " bytes\n", length);
    for (i = 0; i < length / JUNTREAK_RECORD_BYTES; i++)
        print_record(i);

    answer = juntreak_read(book, length, again);
    if (answer != JUNTREAK_OK)
        return refused("read", JUNTREAK_BOOK_NUMBER(answer));
    if (memcmp(table, again, sizeof table) != 0) {
        fprintf(stderr, "read back: another table\n");
        return 1;
    }
    printf("read back: the same table\n");

    answer = juntreak_write(session, book, length - 1);
    printf("in %" PRIu32 " bytes: refused with %" PRIu32 "\n", length - 1, JUNTREAK_WRITE_NUMBER(answer));
    return 0;
}
