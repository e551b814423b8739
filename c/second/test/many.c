/*
 * many.c - tests the fates of long captures: hundreds of calls at an opening,
 * hundreds of openings of a stream, much behind the end of the reading.
 */
#include <stdint.h>
#include <stdio.h>
#include <string.h>

#include "bench.h"
#include "callers.h"
#include "../fates.h"
#include "groups.h"
#include "printing.h"

/* Where a record holds the number of the call that it ends. */
enum {
    W_NUMBER = 2,
    ACCEPT_NUMBER = 3 + 4,
    DENIAL_NUMBER = 3 + 8
};

/* The bytes of a record, with the number put into its place. */
static size_t with_number(const char *record, size_t place, uint32_t number,
                          uint8_t *bytes)
{
    size_t size = parse_records(record, bytes);

    put_number(bytes + place, number);
    return size;
}

/*
 * Ends a call of stream 0 by the three fates in turn. Stream 1 carries it if
 * it is accepted, and loses the peer again.
 */
static size_t end_call(unsigned call, uint32_t number, uint8_t *bytes)
{
    size_t size;

    switch (call % 3) {
    case 0:
        return with_number(WITHDRAW("0", "0"), W_NUMBER, number, bytes);
    case 1:
        return with_number(DENY("0", "0"), DENIAL_NUMBER, number, bytes);
    default:
        size = with_number(ACCEPT_ON("0", "0", "2"), ACCEPT_NUMBER, number,
                           bytes);
        return size + parse_records("D 1 00000000", bytes + size);
    }
}

/*
 * Hundreds of calls ring in at one opening, always with some of them open, and
 * as many at another stream, so that a call is not told by its number: call n
 * of stream 0 has number 2n - 1, call n of stream 2 has number 2n.
 */
static void test_many_calls(struct bench *b)
{
    enum { CALLS = 600, LAG = 5, ROUND = 2 * 19 + 99 + 6 + 10 };
    static const char *const words[] = { "withdrawn", "denied", "accepted" };
    static uint8_t input[LONGEST_TEXT + CALLS * ROUND];
    static char wanted[LONGEST_TEXT + CALLS * 64];
    char *end = wanted + sprintf(wanted, "dlpi fates\n");
    size_t size = parse_records(
        ADD_PPA_1 "O; O; O;" BIND("0", "80", "8") BIND("1", "82", "0")
        BIND("2", "84", "1"), input);

    b->topic = "fates: many calls";
    for (unsigned n = 1; n <= CALLS; n++) {
        size += parse_records(RING("80") RING("84"), input + size);
        size += with_number(WITHDRAW("2", "0"), W_NUMBER, 2 * n,
                            input + size);
        end += sprintf(end, "call 2 1 %u %u withdrawn\n", n, 2 * n);
        if (n <= LAG)
            continue;
        size += end_call(n - LAG, 2 * (n - LAG) - 1, input + size);
        end += sprintf(end, "call 0 1 %u %u %s\n", n - LAG,
                       2 * (n - LAG) - 1, words[(n - LAG) % 3]);
    }
    for (unsigned n = CALLS - LAG + 1; n <= CALLS; n++)
        end += sprintf(end, "call 0 1 %u %u open\n", n, 2 * n - 1);
    /* Of 595 calls, 199 leave 1 and 198 each leave 0 and 2, divided by 3. */
    sprintf(end, "opening 0 1 600 198 199 198 0 5\n"
                 "opening 1 1 0 0 0 0 0 0\n"
                 "opening 2 1 600 0 0 600 0 0\n"
                 "total 3 1200 198 199 798 0 5\n");
    prints(b, second_fates, input, size, wanted, "600 calls");
}

static void test_many_openings(struct bench *b)
{
    enum { OPENINGS = 700 };
    static uint8_t input[OPENINGS * 3];
    static char wanted[LONGEST_TEXT + OPENINGS * 64];
    char *end = wanted + sprintf(wanted, "dlpi fates\n");

    b->topic = "fates: many openings";
    for (unsigned n = 1; n <= OPENINGS; n++) {
        memcpy(input + 3 * (n - 1), "OX\0", 3);
        end += sprintf(end, "opening 0 %u 0 0 0 0 0 0\n", n);
    }
    sprintf(end, "total 700 0 0 0 0 0 0\n");
    prints(b, second_fates, input, sizeof input, wanted, "700 openings");
}

/* However much stands behind an unknown kind, nothing of it is read. */
static void test_much_behind_the_end(struct bench *b)
{
    static uint8_t input[20000];

    b->topic = "fates: much behind an unknown kind";
    memset(input, 'O', sizeof input);
    input[1] = 'Z';
    prints(b, second_fates, input, sizeof input,
           "dlpi fates\nopening 0 1 0 0 0 0 0 0\ntotal 1 0 0 0 0 0 0\n",
           "20000 bytes");
}

void run_many(struct bench *b)
{
    test_many_calls(b);
    test_many_openings(b);
    test_much_behind_the_end(b);
}
