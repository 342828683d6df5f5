/*
 * Juntreak: a monitor for rules of Mission-time Linear Temporal Logic (MLTL).
 *
 * Rules for every function:
 * - Pointers are not null, even where the length beside them is 0, and are
 *   aligned for their type. Buffers of one call do not overlap.
 * - Lengths are in elements, not in bytes.
 * - Multi-byte numbers in tables and sessions are little-endian.
 * - A refused call writes nothing: no byte of any buffer changes. A session
 *   call that is lent status registers writes these even if it is refused, and
 *   nothing else then.
 * - There is no global state. Calls on different buffers may run in parallel.
 */
#ifndef JUNTREAK_H
#define JUNTREAK_H

#include <stddef.h>
#include <stdint.h>

#ifdef __cplusplus
extern "C" {
#endif

/* Sizes in bytes. */
#define JUNTREAK_RECORD_BYTES 12   /* one record of a book */
#define JUNTREAK_BOOK_BYTES 3060   /* the longest book */
#define JUNTREAK_WRITTEN_BYTES 876 /* the longest book that is written */
#define JUNTREAK_TABLE_BYTES 546   /* a table */
#define JUNTREAK_SESSION_BYTES 558 /* a session */
#define JUNTREAK_NARROW_BYTES 558  /* a narrow session, see juntreak_widen */
#define JUNTREAK_STATUS_BYTES 16   /* status registers, see juntreak_open_noted */

/* Sizes in elements. A buffer may be longer. */
#define JUNTREAK_HISTORY_WORDS 4095        /* least length of history, uint32_t */
#define JUNTREAK_SCRATCH_WORDS 5280        /* least length of scratch, uint64_t */
#define JUNTREAK_EARLY_SCRATCH_WORDS 10560 /* the same for juntreak_early */
#define JUNTREAK_FEED_WORDS 16             /* least length of out for a feed, uint64_t */
#define JUNTREAK_CLOSE_WORDS 64            /* least length of out for a close, uint64_t */
#define JUNTREAK_REGISTER_WORDS 80         /* words of a node's register in the scratch */
#define JUNTREAK_WAITING_WORDS 1024        /* words of waiting for each record of a list, uint32_t */

/* Limits. */
#define JUNTREAK_MAX_RECORDS 255                /* records of a book, the head included */
#define JUNTREAK_MAX_NODES 64                   /* nodes of a table */
#define JUNTREAK_MAX_RULES 8                    /* rules of a table */
#define JUNTREAK_MAX_SIGNAL 31                  /* the largest signal */
#define JUNTREAK_MAX_NAME 65535                 /* the largest name of a rule */
#define JUNTREAK_MAX_INTERVAL 4095              /* hi of an interval */
#define JUNTREAK_MAX_PARTS 12                   /* parts of an interval */
#define JUNTREAK_MAX_DELAY 4095                 /* delay of a node */
#define JUNTREAK_MAX_STATE 4294967295           /* the largest state */
#define JUNTREAK_MAX_TRACE 5120                 /* states of a whole trace */
#define JUNTREAK_MAX_BLOCK 1024                 /* states of one feed */
#define JUNTREAK_MAX_SEEN 18446744073709551615u /* states of a session from its opening on */
#define JUNTREAK_MAX_NARROW_SEEN 4294967295     /* the same of a narrow session */
#define JUNTREAK_MAX_DEPTH 32                   /* brackets of a typed rule that are open at once */
#define JUNTREAK_MAX_LIST 8                     /* records of a list */

/* Least length of out for a whole trace of n states. */
#define JUNTREAK_WHOLE_WORDS(n) ((n) / 64 + ((n) % 64 != 0))

/* The numbers that the functions answer, in the order of the checks: the
 * first that fits is answered. 3 to 10 are tried record by record along the
 * chain, on the head only 3. juntreak_read_text says how typed rules are
 * tried. */
enum {
    JUNTREAK_OK = 0,
    /* Books, answered with a record; 5, 6 and 8 to 11 also of typed rules,
     * answered with a line. */
    JUNTREAK_LENGTH = 1,    /* length not 12 * (1..255); record 0 */
    JUNTREAK_HEAD = 2,      /* head has a byte set beside its next; record 0 */
    JUNTREAK_LINK = 3,      /* next beyond the book or already passed; the record that links */
    JUNTREAK_FORM = 4,      /* kind not 1..11, or an unused field, byte 9 of a node or byte 10-11 set */
    JUNTREAK_ARGUMENT = 5,  /* signal above 31, or name 0; typed, also a name above 65535 */
    JUNTREAK_INTERVAL = 6,  /* lo > hi or hi > 4095; splitting answers it with record 0 */
    JUNTREAK_OPERAND = 7,   /* operand not an earlier node */
    JUNTREAK_FULL = 8,      /* 65th node or 9th rule */
    JUNTREAK_LONG = 9,      /* delay of a node above 4095 */
    JUNTREAK_NAME = 10,     /* name already used */
    JUNTREAK_RULELESS = 11, /* chain ended without a rule, record 0; or an empty text, line 0 */
    /* Tables, sessions and lists. */
    JUNTREAK_UNSOUND = 25,  /* bytes that are no sound table's or no session's, or an unfit record of a list */
    JUNTREAK_ABSENT = 21,   /* rule number not below the rule count */
    JUNTREAK_STATES = 22,   /* above 1024 states (feed, leave) or 5120 (whole trace, early) */
    JUNTREAK_BUFFER = 23,   /* history, waiting, scratch or out too short */
    JUNTREAK_LIST = 36,     /* an empty block, a record outside the list, or a list above 8 records */
    JUNTREAK_WAITING = 37,  /* the record to leave a block with, or to close, still waits */
    JUNTREAK_SEEN = 24,     /* seen + k above 18446744073709551615 */
    JUNTREAK_TICK = 31,     /* tick not below the states given */
    JUNTREAK_BEYOND = 35,   /* tick not below the mission's length */
    /* Typed rules, answered with a place in the text, from 0. */
    JUNTREAK_SYNTAX = 32,   /* a byte, or the text's end, that no line can have there */
    JUNTREAK_DEEP = 33,     /* an opening bracket that is fit there, but the 33rd open one */
    /* Written books. */
    JUNTREAK_OUTPUT = 34,   /* out too short for the book */
    /* Status registers. */
    JUNTREAK_PLACE = 38     /* place above 15 */
};

/* The values that juntreak_early answers. */
enum {
    JUNTREAK_NO = 0,
    JUNTREAK_YES = 1,
    JUNTREAK_OPEN = 2 /* not decided by the states given */
};

/* What an answer holds. */
/* of juntreak_check_book and juntreak_read: the number, and the record */
#define JUNTREAK_BOOK_NUMBER(answer) ((uint32_t)(answer) % 256)
#define JUNTREAK_BOOK_RECORD(answer) ((uint32_t)(answer) / 256)
/* of juntreak_read_text: the number, and the place (32, 33) or the line */
#define JUNTREAK_TEXT_NUMBER(answer) ((uint32_t)((answer) % 256))
#define JUNTREAK_TEXT_AT(answer) ((uint64_t)(answer) / 256)
/* of juntreak_write: the number, and the length of the book in bytes */
#define JUNTREAK_WRITE_NUMBER(answer) ((uint32_t)(answer) % 65536)
#define JUNTREAK_WRITE_LENGTH(answer) ((uint32_t)(answer) / 65536)
/* of juntreak_delay: the number, and the delay */
#define JUNTREAK_DELAY_NUMBER(answer) ((uint32_t)(answer) % 65536)
#define JUNTREAK_DELAY_TICKS(answer) ((uint32_t)(answer) / 65536)
/* of juntreak_split: the number, and the count of parts */
#define JUNTREAK_SPLIT_NUMBER(answer) ((uint32_t)(answer) % 256)
#define JUNTREAK_SPLIT_COUNT(answer) ((uint32_t)(answer) / 256)
/* of juntreak_moves: the number, the exponent, the count of moves, and the
 * leftover */
#define JUNTREAK_MOVES_NUMBER(answer) ((uint32_t)((answer) % 256))
#define JUNTREAK_MOVES_EXPONENT(answer) ((uint32_t)((uint64_t)(answer) >> 8) % 256)
#define JUNTREAK_MOVES_COUNT(answer) ((uint32_t)((uint64_t)(answer) >> 16) % 65536)
#define JUNTREAK_MOVES_LEFTOVER(answer) ((uint32_t)((uint64_t)(answer) >> 32))
/* of juntreak_early: the number, and the value */
#define JUNTREAK_EARLY_NUMBER(answer) ((uint32_t)(answer) % 256)
#define JUNTREAK_EARLY_VALUE(answer) ((uint32_t)(answer) / 256)
/* of juntreak_reach: the number, and 1 if there is a range */
#define JUNTREAK_REACH_NUMBER(answer) ((uint32_t)(answer) % 256)
#define JUNTREAK_REACH_RANGE(answer) ((uint32_t)(answer) / 256)
/* of juntreak_feed, of both closes, of the noted ones and of
 * juntreak_close_record: the number, and the count of verdicts */
#define JUNTREAK_CALL_NUMBER(answer) ((uint32_t)(answer))
#define JUNTREAK_CALL_COUNT(answer) ((uint32_t)((uint64_t)(answer) >> 32))
/* of juntreak_turn: the number, 1 if a record was served, its place, and the
 * count of verdicts */
#define JUNTREAK_TURN_NUMBER(answer) ((uint32_t)((answer) % 256))
#define JUNTREAK_TURN_SERVED(answer) ((uint32_t)((uint64_t)(answer) >> 8) % 256)
#define JUNTREAK_TURN_PLACE(answer) ((uint32_t)((uint64_t)(answer) >> 16) % 65536)
#define JUNTREAK_TURN_COUNT(answer) ((uint32_t)((uint64_t)(answer) >> 32))
/* the place to hand to the next turn: that of the record served, or place, the
 * one that this turn was given; answer is evaluated twice */
#define JUNTREAK_TURN_NEXT(answer, place) \
    (JUNTREAK_TURN_SERVED(answer) ? (size_t)JUNTREAK_TURN_PLACE(answer) : (size_t)(place))
/* of juntreak_register_read: the number, and the byte */
#define JUNTREAK_REGISTER_READ_NUMBER(answer) ((uint32_t)(answer) % 256)
#define JUNTREAK_REGISTER_READ_VALUE(answer) ((uint32_t)(answer) / 256)

/* Verdict i of out, 1 or 0. */
#define JUNTREAK_VERDICT(out, i) ((unsigned)((out)[(i) / 64] >> ((i) % 64) & 1))

/* Places in a table's bytes, and what stands at a place of a node or a rule. */
#define JUNTREAK_NODE_COUNT_AT 0
#define JUNTREAK_RULE_COUNT_AT 1
#define JUNTREAK_NODE_AT(i) (2 + 8 * (i))   /* kind, argument, lo (2), hi (2), left, right */
#define JUNTREAK_RULE_AT(i) (514 + 4 * (i)) /* name (2), watched node, zero */

/* Places in a session's bytes, behind its table. */
#define JUNTREAK_RULE_NUMBER_AT 546 /* the rule number (4) */
#define JUNTREAK_SEEN_AT 550        /* seen (8) */

/* Places in the status registers. */
#define JUNTREAK_STATUS_AT 0
#define JUNTREAK_ENABLE_AT 1
#define JUNTREAK_INTERRUPT_AT 2
#define JUNTREAK_REFUSAL_AT 3  /* number of the last refused session call */
#define JUNTREAK_FIRST_NO_AT 4 /* tick of the first no (8) */

/* The bits of status and of enable. */
#define JUNTREAK_STATUS_RUNNING 1 /* bit 0: a session is open */
#define JUNTREAK_STATUS_READY 2   /* bit 1: verdicts are ready */
#define JUNTREAK_STATUS_NO 4      /* bit 2: a no was given */
#define JUNTREAK_STATUS_REFUSED 8 /* bit 3: a session call was refused */

/* The name of rule i of a table. */
#define JUNTREAK_RULE_NAME(table, i) \
    ((unsigned)(table)[JUNTREAK_RULE_AT(i)] + 256u * (table)[JUNTREAK_RULE_AT(i) + 1])

/*
 * A book is 1 to 255 records of 12 bytes. Byte 0: kind; 1: argument;
 * 2-3: lo; 4-5: hi; 6: left; 7: right; 8: next; 9: upper half of a rule's
 * name, zero in every other record; 10-11: zero. Record 0 is the head, all zero
 * but its next. Kinds: 1 signal, 2 true, 3 false, 4 not, 5 and, 6 or,
 * 7 F (eventually), 8 G (always), 9 U (until), 10 R (release), 11 rule
 * (argument: lower half of its name, which is 1..65535; left: watched formula).
 * Earlier libraries, with names up to 255, refuse a book that has a larger one
 * on its chain, with 4 if no check before finds a fault.
 *
 * A table is 546 bytes.
 *   0        count of nodes
 *   1        count of rules
 *   2..513   64 nodes of 8 bytes: kind, argument, lo (2), hi (2), left, right;
 *            operands are places of nodes
 *   514..545 8 rules of 4 bytes: name (2), place of the watched node, zero
 * Free places are zero. A table is sound if a book could have yielded it.
 *
 * A session is 558 bytes.
 *   0..545   its table
 *   546..549 the rule number
 *   550..557 seen, the count of states fed
 * A narrow session is one of a library whose count of states had 32 bits: the
 * same 558 bytes, with seen at most 4294967295.
 *
 * Verdicts in out: verdict i is bit i % 64 of word i / 64.
 *
 * Status registers are 16 bytes in which session calls leave what they came to.
 * All are zero at the start. They are not the registers of nodes, which stand in
 * the scratch.
 *   0        status: bit 0 running, 1 verdicts ready, 2 a no was given, 3 a
 *            call was refused
 *   1        enable: the same bits, as the program wrote them
 *   2        interrupt: 1 if status and enable share a set bit, otherwise 0
 *   3        number of the last refused session call; 0 if there was none
 *   4..11    tick of the first no since bit 2 of status was last clear; 0 while
 *            it is clear
 *   12..15   zero
 *
 * A list is up to 8 records over one table, each of which watches a rule;
 * several may watch one. They are no records of a book. A record has a rule
 * number, seen, and waiting, the number of states left with it that are not
 * yet fed. Two buffers are lent for the whole list: history, 4095 words for
 * each record, those of record i from word 4095 * i on, and waiting, 1024
 * words for each, those of record i from word 1024 * i on. The caller lends
 * the same table, list, history and waiting to every call on a list. At the
 * start each record has its rule number, seen 0 and waiting 0; both buffers may
 * hold anything then.
 *
 * A text is lines, each ended by byte 10; a line is one rule.
 *   line         name : formula
 *   formula      disjunction, or unary U[a,b] unary, or unary R[a,b] unary
 *   disjunction  conjunctions joined by |, grouped to the left
 *   conjunction  unaries joined by &, grouped to the left
 *   unary        atom, or !, F[a,b] or G[a,b] before a unary
 *   atom         s with a number, true, false, or a formula in round brackets
 * Numbers are decimal without leading zeros. Spaces (byte 32) may stand
 * anywhere but inside a number, true, false or s with its number. At most 32
 * brackets are open at once.
 */

/* Checks a book of n bytes. Answers 0 if it is accepted, otherwise
 * number + 256 * record, numbers 1 to 11. */
uint32_t juntreak_check_book(const uint8_t *book, size_t n);

/* Reads a book of n bytes. Answers as juntreak_check_book does. If it is 0,
 * the book's table is written. */
uint32_t juntreak_read(const uint8_t *book, size_t n,
                       uint8_t table[JUNTREAK_TABLE_BYTES]);

/* Reads a text of n bytes. Answers 0 if it is accepted, otherwise
 * number + 256 * place with 32 and 33, number + 256 * line with 5, 6, 8, 9,
 * 10 and 11; places count from 0, lines from 1. If it is 0, the text's table
 * is written: line by line a node for each atom without brackets and each
 * operator, operands before users, left first, then the rule.
 * An empty text is refused with 11, line 0. Lines are tried one by one:
 * - first with the earliest of 32 and 33 in the line; no line at all, of any
 *   depth, begins with the bytes up to and with the place of a 32, and a line
 *   that lacks only its byte 10 has 32 at n;
 * - then node by node, the rule last, with the first of 5 (signal above 31,
 *   name 0 or above 65535), 6, 8, 9 and 10 that fits.
 * A place of 2^56 or more is told as 2^56 - 1. */
uint64_t juntreak_read_text(const uint8_t *text, size_t n,
                            uint8_t table[JUNTREAK_TABLE_BYTES]);

/* Writes the book of a table: the head, then all nodes in table order, then
 * the rules, numbered and chained 1, 2, 3 up, with no spare records. n is the
 * length of out, at least 12 * (1 + nodes + rules); JUNTREAK_WRITTEN_BYTES is
 * always enough. Answers number + 65536 * length, numbers 0, 25, 34; the
 * length is 0 if refused. If the number is 0, the first length bytes of out
 * are the book, the others are unchanged, and reading the book yields the same
 * table, byte for byte. A session's bytes begin with its table and can be
 * given as the table: the book is then the one that the session runs,
 * simplified if its table was. */
uint32_t juntreak_write(const uint8_t table[JUNTREAK_TABLE_BYTES],
                        uint8_t *out, size_t n);

/* The delay of a rule, which is that of its watched node: how many later
 * states a verdict waits for. Signal, true, false: 0. Not: its operand's. And,
 * or: the larger. F, G: hi + the operand's. U, R: if lo = hi, hi + the right
 * operand's, otherwise hi + the larger of the left's less one (0 stays 0) and
 * the right's; so a left operand may have a larger delay than its user.
 * Answers number + 65536 * delay, numbers 0, 25, 21; the delay is 0 if
 * refused. */
uint32_t juntreak_delay(const uint8_t table[JUNTREAK_TABLE_BYTES],
                        uint32_t rule);

/* Splits the interval [lo, hi]. Answers number + 256 * count, numbers 0 and
 * 6; the count is 0 if refused. If the number is 0, the parts are written:
 * hi - lo is the sum of 2^k - 1 over the first count numbers k, largest
 * first, and the other places are zero. */
uint32_t juntreak_split(uint16_t lo, uint16_t hi,
                        uint8_t parts[JUNTREAK_MAX_PARTS]);

/* The shorter splitting of the interval [lo, hi], by which F and G are run; U
 * and R are run by the parts of juntreak_split. For the length m = hi - lo + 1
 * the exponent is the largest b with 2^b <= m, the leftover is m - 2^b, and
 * the count is that of the moves: b doublings and, with a leftover, one more
 * joining of the result with itself moved by the leftover. No list of moves in
 * which each joins two earlier results, either one moved by any amount, makes
 * a window of that length with fewer.
 * Answers number + 256 * exponent + 65536 * count + 2^32 * leftover, numbers
 * 0 and 6; the others are 0 if refused. */
uint64_t juntreak_moves(uint16_t lo, uint16_t hi);

/* The verdicts of a rule on a whole trace of n states, n at most 5120; bit s
 * of a state is signal s. x is the length of scratch, at least 5280; o that
 * of out, at least JUNTREAK_WHOLE_WORDS(n). Answers the number: 0, 25, 21,
 * 22, 23. If it is 0, the verdict of tick t is bit t % 64 of word t / 64 of
 * out, the unused bits of the last such word are zero, later words are
 * unchanged; the first 5280 words of scratch are zero, the others unchanged. */
uint32_t juntreak_verdicts(const uint8_t table[JUNTREAK_TABLE_BYTES],
                           uint32_t rule, const uint32_t *states, size_t n,
                           uint64_t *scratch, size_t x,
                           uint64_t *out, size_t o);

/* What n states, the first of a trace, already decide about a rule at a tick
 * below n, n at most 5120. x is the length of scratch, at least 10560.
 * Answers number + 256 * value, numbers 0, 25, 21, 22, 23, 31; the value is 0
 * if refused. If the number is 0, the value is JUNTREAK_NO, JUNTREAK_YES or
 * JUNTREAK_OPEN, by three-valued logic with open in the middle:
 * - every node, a constant included, is open at a tick not below n;
 * - not turns the values round, and is the smaller, or the larger;
 * - F is the or, G the and, of its operand over every tick of the interval,
 *   those not below n included; U and R follow from their definitions.
 * A yes or no never changes when more states come, and it is the verdict of
 * the closed trace, wherever that ends. With tick + delay < n the value is
 * not open. A simplified table may be decided after fewer states; the verdict
 * is the same. The first 10560 words of scratch are zero, the others
 * unchanged. */
uint32_t juntreak_early(const uint8_t table[JUNTREAK_TABLE_BYTES],
                        uint32_t rule, const uint32_t *states, size_t n,
                        size_t tick, uint64_t *scratch, size_t x);

/* How far one bad reading reaches: at which ticks of a mission of so many
 * states, its length, the verdict of a rule may change with the state of tick.
 * With D the rule's delay and near its near distance, two missions of this
 * length that differ in the state of tick alone have the same verdict at every
 * tick outside tick - D to tick - near. The near distance: signal, true, false:
 * 0. Not: its operand's. And, or: the smaller. F, G: lo + the operand's. U, R:
 * lo + the smaller. It is never above the delay.
 * Answers number + 256 if there is a range, numbers 0, 25, 21, 35. With a range,
 * range[0] and range[1] are its first and last tick, cut to the ticks of the
 * mission; otherwise nothing is written: where the answer is 0, no tick of the
 * mission lies there. Not every verdict of the range has to change. The call
 * reads the table that it is given: juntreak_simplify keeps every verdict and
 * raises no delay, but may change the near distance either way, and both
 * ranges hold. */
uint32_t juntreak_reach(const uint8_t table[JUNTREAK_TABLE_BYTES],
                        uint32_t rule, uint64_t length, uint64_t tick,
                        uint64_t range[2]);

/* Simplifies a table in place. Answers the number: 0, or 25 with the table
 * unchanged. If it is 0, every verdict of every rule on every trace is as
 * before, rule order and names too; no delay and no count is larger; the
 * result is sound, and a table that no law fits stays as it is. */
uint32_t juntreak_simplify(uint8_t table[JUNTREAK_TABLE_BYTES]);

/* Opens a session on a rule, with no state seen. Answers the number: 0, 25,
 * 21. If it is 0, the session is written. */
uint32_t juntreak_open(const uint8_t table[JUNTREAK_TABLE_BYTES],
                       uint32_t rule, uint8_t session[JUNTREAK_SESSION_BYTES]);

/* Widens a narrow session, as the earlier library left it, into another
 * buffer: call it once, before this library's first other call on the session.
 * Answers the number: 0, or 25 if its table is not sound, its rule number not
 * below the rule count, or its seen above 4294967295. If it is 0, the session
 * is written, with the same table, rule number and seen. The earlier library
 * had the old delay: a session whose rule has U or R is then ended with
 * juntreak_close_old. Any other goes on with the same history, as if it had
 * been opened by juntreak_open and fed all that the narrow one was fed. Bytes
 * do not tell which library left them: a session of this one is taken too
 * while its seen is in range. */
uint32_t juntreak_widen(const uint8_t narrow[JUNTREAK_NARROW_BYTES],
                        uint8_t session[JUNTREAK_SESSION_BYTES]);

/* Feeds a block of k states, k at most 1024. D is the delay of the session's
 * rule. The caller lends the same history to every call on a session; its
 * first min(seen, D) places hold the last states fed, oldest first, and at
 * the start it may hold anything. h, x and o are the lengths of history,
 * scratch and out, at least 4095, 5280 and 16.
 * Answers number + 2^32 * count, numbers 0, 25, 22, 23, 24; the count is 0
 * if refused. If the number is 0:
 * - the count is max(0, seen + k - D) - max(0, seen - D), and out begins with
 *   the verdicts of so many further ticks; the unused bits of the first 16
 *   words are zero, later words are unchanged;
 * - history's first min(seen + k, D) places hold the last states fed, its
 *   other places are unchanged;
 * - the first 5280 words of scratch are zero, the others unchanged;
 * - seen in the session has grown by k. */
uint64_t juntreak_feed(uint8_t session[JUNTREAK_SESSION_BYTES],
                       const uint32_t *block, size_t k,
                       uint32_t *history, size_t h,
                       uint64_t *scratch, size_t x,
                       uint64_t *out, size_t o);

/* Ends the trace. h, x and o are at least 4095, 5280 and 64.
 * Answers number + 2^32 * count, numbers 0, 25, 23; the count is 0 if
 * refused. If the number is 0:
 * - the count is min(seen, D), and out begins with the verdicts of the last
 *   so many ticks; the unused bits of the first 64 words are zero, later
 *   words are unchanged;
 * - the first 5280 words of scratch are zero, the others unchanged;
 * - seen in the session is 0. */
uint64_t juntreak_close(uint8_t session[JUNTREAK_SESSION_BYTES],
                        const uint32_t *history, size_t h,
                        uint64_t *scratch, size_t x,
                        uint64_t *out, size_t o);

/* Ends the trace of a session that was opened and fed under the old delay, by
 * an earlier library; a narrow one is widened first. The old delay of U and R
 * is hi + the larger of both operands'. It does as juntreak_close does, but D
 * is the old delay of the session's rule, and 25 asks that every node's old
 * delay is at most 4095. No verdict differs between the two delays. The
 * session is then as juntreak_open leaves it; before, it is not fed and not
 * closed otherwise, because its history holds as many states as the old delay
 * asks for. */
uint64_t juntreak_close_old(uint8_t session[JUNTREAK_SESSION_BYTES],
                            const uint32_t *history, size_t h,
                            uint64_t *scratch, size_t x,
                            uint64_t *out, size_t o);

/* The noted session calls: each is the plain call of the same name, lent status
 * registers before its other parameters. It answers what the plain call answers
 * and leaves every other buffer as that does, whatever the registers hold; and it
 * notes in the registers what it came to:
 * - accepted, it sets bit 1 of status if it gives a verdict, and bit 2 if it
 *   gives a no; an open also sets bit 0, and either close clears it;
 * - refused, it sets bit 3 and leaves its number in byte 3; the registers are
 *   then all that is written;
 * - the first no while bit 2 is clear leaves its tick in bytes 4 to 11, where it
 *   stays under later ones until bit 2 is cleared.
 * Ticks count from the session's opening, or its last close: the tick of a
 * verdict is the number of verdicts that the session gave before the call,
 * max(0, seen - D) with seen as the call found it, plus its place in the call,
 * from 0. In juntreak_close_old_noted D is the old delay.
 * The same registers may be lent to calls on several sessions: they tell of all
 * the calls together. Calls on a list do not note anything.
 *
 * To wait for the interrupt, a program writes the bits that it waits for to byte
 * 1, and looks at byte 2 after each call. If that is 1, byte 0 tells why. Once it
 * has read what it wants, it writes the bits that it has seen back to byte 0,
 * which clears them, and byte 2 is 0 until the next of them is set. Bit 0 is not
 * cleared by writing. Byte 3 stays when bit 3 is cleared.
 *
 * A noted call, and a write to byte 0 or 1, writes all 16 bytes anew. Where they
 * hold what no call leaves, it goes by the low halves of bytes 0 and 1, by byte 3
 * and by bytes 4 to 11. If bit 2 is clear, the last of these are made zero by an
 * accepted call without a no and by a write to byte 0, and kept by a refused call
 * and by a write to byte 1. */

/* juntreak_open, noted. */
uint32_t juntreak_open_noted(uint8_t registers[JUNTREAK_STATUS_BYTES],
                             const uint8_t table[JUNTREAK_TABLE_BYTES],
                             uint32_t rule,
                             uint8_t session[JUNTREAK_SESSION_BYTES]);

/* juntreak_widen, noted. It gives no verdict and leaves bit 0 as it is. */
uint32_t juntreak_widen_noted(uint8_t registers[JUNTREAK_STATUS_BYTES],
                              const uint8_t narrow[JUNTREAK_NARROW_BYTES],
                              uint8_t session[JUNTREAK_SESSION_BYTES]);

/* juntreak_feed, noted. */
uint64_t juntreak_feed_noted(uint8_t registers[JUNTREAK_STATUS_BYTES],
                             uint8_t session[JUNTREAK_SESSION_BYTES],
                             const uint32_t *block, size_t k,
                             uint32_t *history, size_t h,
                             uint64_t *scratch, size_t x,
                             uint64_t *out, size_t o);

/* juntreak_close, noted. */
uint64_t juntreak_close_noted(uint8_t registers[JUNTREAK_STATUS_BYTES],
                              uint8_t session[JUNTREAK_SESSION_BYTES],
                              const uint32_t *history, size_t h,
                              uint64_t *scratch, size_t x,
                              uint64_t *out, size_t o);

/* juntreak_close_old, noted. */
uint64_t juntreak_close_old_noted(uint8_t registers[JUNTREAK_STATUS_BYTES],
                                  uint8_t session[JUNTREAK_SESSION_BYTES],
                                  const uint32_t *history, size_t h,
                                  uint64_t *scratch, size_t x,
                                  uint64_t *out, size_t o);

/* Writes a value to a place of the status registers. Answers the number: 0, 38.
 * To byte 0: those of bits 1 to 3 that are set in the value are cleared, and
 * where bit 2 is clear then, bytes 4 to 11 are zero; bit 0 stays. To byte 1:
 * enable is the low four bits of the value. Byte 2 follows. A write to any other
 * place changes nothing. */
uint32_t juntreak_register_write(uint8_t registers[JUNTREAK_STATUS_BYTES],
                                 size_t place, uint8_t value);

/* Reads the byte at a place of the status registers; a program may as well look
 * at the byte itself. Answers number + 256 * byte, numbers 0, 38; the byte is 0
 * if refused. */
uint32_t juntreak_register_read(const uint8_t registers[JUNTREAK_STATUS_BYTES],
                                size_t place);

/* A record of a list: 24 bytes. */
struct juntreak_record {
    uint64_t rule;    /* the rule number */
    uint64_t seen;    /* states fed since the start or the last close */
    uint64_t waiting; /* states left and not yet fed, 0 to 1024 */
};

/* The calls on a list of n records: juntreak_leave leaves a block of states
 * with one record, juntreak_turn feeds the block of one record that waits, and
 * juntreak_close_record ends the trace of one.
 * - Whoever waits is served within as many accepted turns as there are records,
 *   whoever else leaves blocks meanwhile, if each turn gets the place that the
 *   last one gave back (JUNTREAK_TURN_NEXT) and nobody else writes the list.
 * - From records with seen 0 and waiting 0 on, if nobody else writes the list,
 *   history or waiting, each record's verdicts are those of a session of its
 *   own: opened on its rule of the same table, and given the blocks served and
 *   the closes in the same order.
 * All three refuse with 25 if the table is not sound, or any record of the
 * list, not only the one that the call is about, has a rule number not below
 * the rule count or waiting above 1024; and with 36 if n is above 8. */

/* Leaves a block of k states, k from 1 to 1024, with the record at place. w is
 * the length of waiting, at least 1024 * n.
 * Answers the number: 0, 25, 22, 23, 36 (also k 0, or place not below n), 37
 * (the record still waits), 24 (its seen + k). If it is 0, the block stands in
 * waiting's words from 1024 * place on, the others are unchanged, and the
 * record's waiting is k. */
uint32_t juntreak_leave(struct juntreak_record *records, size_t n,
                        const uint8_t table[JUNTREAK_TABLE_BYTES],
                        size_t place, const uint32_t *block, size_t k,
                        uint32_t *waiting, size_t w);

/* A turn: feeds the first record that waits after the one at place, wrapping
 * round, that one last of all. A place not below n means that the search begins
 * at record 0. h, w, x and o are the lengths of history, waiting, scratch and
 * out, at least 4095 * n, 1024 * n, 5280 and 16.
 * Answers number + 256 if a record was served + 65536 * its place
 * + 2^32 * count, numbers 0, 25, 23, 36, 24 (seen + waiting of the record to
 * serve); all but the number is 0 if refused. If a record was served:
 * - count, out, scratch and the record's own words of history are as
 *   juntreak_feed answers and leaves them for a session with the record's rule
 *   number and seen, given the block that waits; the other words of history are
 *   unchanged;
 * - the record's seen has grown by its waiting, which is 0 then.
 * If nobody waits, the answer is 0, and only scratch changes: its first 5280
 * words are zero. */
uint64_t juntreak_turn(struct juntreak_record *records, size_t n,
                       const uint8_t table[JUNTREAK_TABLE_BYTES],
                       size_t place, uint32_t *history, size_t h,
                       const uint32_t *waiting, size_t w,
                       uint64_t *scratch, size_t x,
                       uint64_t *out, size_t o);

/* Ends the trace of the record at place. h, x and o are at least 4095 * n, 5280
 * and 64.
 * Answers number + 2^32 * count, numbers 0, 25, 23, 36 (also place not below n),
 * 37 (the record still waits); the count is 0 if refused. If the number is 0,
 * count, out and scratch are as juntreak_close answers and leaves them for a
 * session with the record's rule number and seen and its words of history, and
 * the record's seen is 0. */
uint64_t juntreak_close_record(struct juntreak_record *records, size_t n,
                               const uint8_t table[JUNTREAK_TABLE_BYTES],
                               size_t place,
                               const uint32_t *history, size_t h,
                               uint64_t *scratch, size_t x,
                               uint64_t *out, size_t o);

#ifdef __cplusplus
}
#endif

#endif
