/*
 * fates.c - tests what the command fates prints. The texts are worked out from
 * the rules of the provider and from the layout of the text.
 */
#include "../fates.h"

#include <stdint.h>
#include <stdio.h>

#include "bench.h"
#include "callers.h"
#include "groups.h"
#include "printing.h"

static void tells(struct bench *b, const char *input, const char *wanted)
{
    prints_text(b, second_fates, input, wanted);
}

/* The example of the paper on fates. */
static void test_four_cranes(struct bench *b)
{
    b->topic = "fates: four cranes";
    tells(b,
        ADD_PPA_1 "O;" BIND("0", "80", "5") "O;" BIND("1", "82", "0")
        RING("80") RING("80") RING("80") RING("80") RING("80") RING("80")
        ACCEPT_ON("0", "2", "2") DENY("0", "3") WITHDRAW("0", "4")
        DENY("0", "2") ACCEPT_ON("0", "3", "0") WITHDRAW("0", "4")
        "X 0; D 1 00000007",
        "dlpi fates\n"
        "call 0 1 2 2 accepted\n"
        "call 0 1 3 3 denied\n"
        "call 0 1 4 4 withdrawn\n"
        "call 0 1 1 1 dropped\n"
        "call 0 1 5 5 dropped\n"
        "opening 0 1 5 1 1 1 2 0\n"
        "opening 1 1 0 0 0 0 0 0\n"
        "total 2 5 1 1 1 2 0\n");
}

/* Each fate alone, with the calls before and behind it open. */
static void test_each_fate(struct bench *b)
{
#define THREE_CALLS                                            \
    ADD_PPA_1 "O;" BIND("0", "80", "3") "O;" BIND("1", "82", "0") \
    RING("80") RING("80") RING("80")
#define FIRST_AND_THIRD "call 0 1 1 1 open\ncall 0 1 3 3 open\n"

    b->topic = "fates: each fate";
    tells(b, THREE_CALLS ACCEPT_ON("0", "2", "2"),
        "dlpi fates\ncall 0 1 2 2 accepted\n" FIRST_AND_THIRD
        "opening 0 1 3 1 0 0 0 2\nopening 1 1 0 0 0 0 0 0\n"
        "total 2 3 1 0 0 0 2\n");
    tells(b, THREE_CALLS DENY("0", "2"),
        "dlpi fates\ncall 0 1 2 2 denied\n" FIRST_AND_THIRD
        "opening 0 1 3 0 1 0 0 2\nopening 1 1 0 0 0 0 0 0\n"
        "total 2 3 0 1 0 0 2\n");
    tells(b, THREE_CALLS "C 0 00000013 00000003 00000002",
        "dlpi fates\ncall 0 1 2 2 denied\n" FIRST_AND_THIRD
        "opening 0 1 3 0 1 0 0 2\nopening 1 1 0 0 0 0 0 0\n"
        "total 2 3 0 1 0 0 2\n");
    tells(b, THREE_CALLS WITHDRAW("0", "2"),
        "dlpi fates\ncall 0 1 2 2 withdrawn\n" FIRST_AND_THIRD
        "opening 0 1 3 0 0 1 0 2\nopening 1 1 0 0 0 0 0 0\n"
        "total 2 3 0 0 1 0 2\n");
    tells(b, THREE_CALLS "X 0",
        "dlpi fates\ncall 0 1 1 1 dropped\ncall 0 1 2 2 dropped\n"
        "call 0 1 3 3 dropped\n"
        "opening 0 1 3 0 0 0 3 0\nopening 1 1 0 0 0 0 0 0\n"
        "total 2 3 0 0 0 3 0\n");
}

/* The calls of a closed stream are not those of its next opening. */
static void test_openings_apart(struct bench *b)
{
    b->topic = "fates: two openings of a stream";
    tells(b,
        ADD_PPA_1 "O;" BIND("0", "80", "2") RING("80") RING("80") "X 0;"
        RING("80") "O;" WITHDRAW("0", "1") DENY("0", "1")
        BIND("0", "80", "1") WITHDRAW("0", "2") RING("80")
        ACCEPT_ON("0", "1", "0") DENY("0", "2") RING("80")
        ACCEPT_ON("0", "3", "0") "X 0",
        "dlpi fates\n"
        "call 0 1 1 1 dropped\n"
        "call 0 1 2 2 dropped\n"
        "opening 0 1 2 0 0 0 2 0\n"
        "call 0 2 1 3 accepted\n"
        "opening 0 2 1 1 0 0 0 0\n"
        "total 2 3 1 0 0 2 0\n");
    tells(b,
        ADD_PPA_1 "O;" BIND("0", "80", "2") RING("80") DENY("0", "1") "X 0;"
        "O; O;" BIND("0", "80", "2") BIND("1", "82", "2")
        RING("82") RING("80") "X 0; O",
        "dlpi fates\n"
        "call 0 1 1 1 denied\n"
        "opening 0 1 1 0 1 0 0 0\n"
        "call 0 2 1 3 dropped\n"
        "opening 0 2 1 0 0 0 1 0\n"
        "opening 0 3 0 0 0 0 0 0\n"
        "call 1 1 1 2 open\n"
        "opening 1 1 1 0 0 0 0 1\n"
        "total 4 3 0 1 0 1 1\n");
}

/* The call that is accepted is the listener's, whichever stream carries it. */
static void test_carriers(struct bench *b)
{
    b->topic = "fates: the stream that carries the call";
    tells(b,
        ADD_PPA_1 "O; O;" BIND("1", "80", "1") BIND("0", "82", "2")
        RING("80") ACCEPT_ON("1", "1", "1"),
        "dlpi fates\n"
        "call 1 1 1 1 accepted\n"
        "opening 0 1 0 0 0 0 0 0\n"
        "opening 1 1 1 1 0 0 0 0\n"
        "total 2 1 1 0 0 0 0\n");
    tells(b,
        ADD_PPA_1 "O; O;" BIND("0", "80", "1") BIND("1", "82", "2")
        RING("80") RING("82") ACCEPT_ON("0", "1", "2") WITHDRAW("1", "2")
        ACCEPT_ON("0", "1", "2") RING("82") RING("80") "X 1;" DENY("0", "3"),
        "dlpi fates\n"
        "call 1 1 1 2 withdrawn\n"
        "call 0 1 1 1 accepted\n"
        "call 0 1 2 3 denied\n"
        "opening 0 1 2 1 1 0 0 0\n"
        "opening 1 1 1 0 0 1 0 0\n"
        "total 2 3 1 1 1 0 0\n");
    tells(b,
        ADD_PPA_1 "O;" BIND("0", "80", "1") RING("80")
        ACCEPT_ON("0", "1", "1") RING("80") "D 0 00000001;" RING("80")
        ACCEPT_ON("0", "2", "0"),
        "dlpi fates\n"
        "call 0 1 1 1 accepted\n"
        "call 0 1 2 2 accepted\n"
        "opening 0 1 2 2 0 0 0 0\n"
        "total 1 2 2 0 0 0 0\n");
}

/* A refused record and a request in error tell no fate. */
static void test_refused(struct bench *b)
{
    uint8_t bytes[2 * LONGEST_TEXT];
    size_t size = parse_records(
        ADD_PPA_1 "O;" BIND("0", "80", "2") RING("80"), bytes);

    b->topic = "fates: refused records";
    tells(b,
        ADD_PPA_1 "X 0; O;" BIND("0", "80", "2") RING("82") RING("80")
        RING("80") RING("80") "X 1;" WITHDRAW("0", "3") WITHDRAW("1", "1")
        WITHDRAW("0", "0") "D 0 00000001;" DENY("0", "0") DENY("0", "3")
        DENY("1", "1") ACCEPT_ON("0", "1", "0") ACCEPT_ON("0", "1", "7"),
        "dlpi fates\n"
        "call 0 1 1 1 open\n"
        "call 0 1 2 2 open\n"
        "opening 0 1 2 0 0 0 0 2\n"
        "total 1 2 0 0 0 0 2\n");

    message(bytes + size, 0, 12, "00000013 00000003 00000001 01");
    message(bytes + size + 99, 0, 97, "00000013 00000003 00000001");
    message(bytes + size + 198, 0, 3, "000000");
    prints(b, second_fates, bytes, size + 297,
        "dlpi fates\ncall 0 1 1 1 open\nopening 0 1 1 0 0 0 0 1\n"
        "total 1 1 0 0 0 0 1\n", "nonzero padding, L 97, L 3");
}

static void test_refused_open(struct bench *b)
{
    char wanted[LONGEST_TEXT];
    char *end = wanted;

    b->topic = "fates: a refused open";
    end += sprintf(end, "dlpi fates\n");
    for (unsigned s = 0; s < 16; s++)
        end += sprintf(end, "opening %u 1 0 0 0 0 0 0\n", s);
    sprintf(end, "total 16 0 0 0 0 0 0\n");
    prints(b, second_fates, (const uint8_t *)"OOOOOOOOOOOOOOOOO", 17, wanted,
           "the seventeenth is refused");
}

/* A d or DISCONNECT_IND with number 0 is about a connection. */
static void test_connections(struct bench *b)
{
#define CONNECT_OUT "P 0 0000000d " CONNECT_FIELDS " 02000000000984;"

    b->topic = "fates: number 0";
    tells(b,
        ADD_PPA_1 "O;" BIND("0", "80", "2")
        CONNECT_OUT DENY("0", "0")
        CONNECT_OUT "D 0 00000001;"
        CONNECT_OUT "A 0 02000000000984;" DENY("0", "0")
        RING("80") ACCEPT_ON("0", "1", "0") "D 0 00000001;"
        RING("80") ACCEPT_ON("0", "2", "0") "X 0",
        "dlpi fates\n"
        "call 0 1 1 1 accepted\n"
        "call 0 1 2 2 accepted\n"
        "opening 0 1 2 2 0 0 0 0\n"
        "total 1 2 2 0 0 0 0\n");
}

static void test_still_open(struct bench *b)
{
    b->topic = "fates: open at the end";
    tells(b,
        ADD_PPA_1 "O; O; O; O;" BIND("0", "80", "2") BIND("1", "82", "1")
        BIND("3", "84", "2") RING("84") RING("80") RING("82") RING("80")
        RING("84") WITHDRAW("3", "1") RING("84") "X 2",
        "dlpi fates\n"
        "call 3 1 1 1 withdrawn\n"
        "call 0 1 1 2 open\n"
        "call 0 1 2 4 open\n"
        "opening 0 1 2 0 0 0 0 2\n"
        "call 1 1 1 3 open\n"
        "opening 1 1 1 0 0 0 0 1\n"
        "opening 2 1 0 0 0 0 0 0\n"
        "call 3 1 2 5 open\n"
        "call 3 1 3 6 open\n"
        "opening 3 1 3 0 0 1 0 2\n"
        "total 4 6 0 0 1 0 5\n");
}

/* Reading ends as in replay. */
static void test_ends(struct bench *b)
{
    uint8_t bytes[2 * LONGEST_TEXT];
    size_t size = parse_records(
        ADD_PPA_1 "O;" BIND("0", "80", "2") RING("80") "X 0", bytes);

    b->topic = "fates: where reading ends";
    tells(b, "", "dlpi fates\ntotal 0 0 0 0 0 0 0\n");
    tells(b, ADD_PPA_1, "dlpi fates\ntotal 0 0 0 0 0 0 0\n");
    prints(b, second_fates, bytes, size,
           "dlpi fates\ncall 0 1 1 1 dropped\nopening 0 1 1 0 0 0 1 0\n"
           "total 1 1 0 0 0 1 0\n", "whole");
    prints(b, second_fates, bytes, size - 1,
           "dlpi fates\ncall 0 1 1 1 open\nopening 0 1 1 0 0 0 0 1\n"
           "total 1 1 0 0 0 0 1\n", "cut record");
    prints(b, second_fates, (const uint8_t *)"OdO", 3,
           "dlpi fates\nopening 0 1 0 0 0 0 0 0\ntotal 1 0 0 0 0 0 0\n",
           "unknown kind");
}

void run_fates(struct bench *b)
{
    test_four_cranes(b);
    test_each_fate(b);
    test_openings_apart(b);
    test_carriers(b);
    test_refused(b);
    test_refused_open(b);
    test_connections(b);
    test_still_open(b);
    test_ends(b);
}
