/*
 * faults.c - tests how the fates are told of a provider that breaks the rules:
 * the turns are made up, and no provider is called.
 */
#include <stdint.h>
#include <stdio.h>
#include <string.h>

#include "bench.h"
#include "../fates.h"
#include "groups.h"
#include "printing.h"

#define CONNECT_IND_TO(s, number) "P " s " 0000000e 0000000" number
#define DISCONNECT_IND_TO(s, number) \
    "P " s " 00000014 00000701 00000000 0000000" number
#define CALL_IN "I 00000001 02000000000180 02000000000284"
#define ASKING(s) "P " s " 00000000"

static struct ledger new_ledger(void)
{
    return (struct ledger){ .out = new_file() };
}

/* The call for the record in writes the records out. */
static bool writes(struct ledger *ledger, const char *in, const char *out,
                   enum refusal refusal)
{
    uint8_t record[LONGEST_TEXT];
    uint8_t written[LONGEST_TEXT];
    struct turn turn = { .record = record, .refusal = refusal };

    parse_records(in, record);
    turn.size = parse_records(out, written);
    memcpy(turn.room, written, turn.size);
    return second_note_turn(ledger, &turn);
}

static void noted(struct bench *b, struct ledger *ledger, const char *in,
                  const char *out)
{
    check(b, writes(ledger, in, out, SERVED), out);
}

static bool opens(struct ledger *ledger, uint32_t token)
{
    struct turn turn = {
        .record = (const uint8_t *)"O",
        .opened = { token }
    };

    return second_note_turn(ledger, &turn);
}

static void tells(struct bench *b, struct ledger *ledger, const char *wanted)
{
    second_sum_up(ledger);
    check_printed(b, ledger->out, wanted, b->topic);
}

/* Records that end a number that is not open are counted, and no more. */
static void test_number_not_open(struct bench *b)
{
    struct ledger ledger = new_ledger();

    b->topic = "faults: a number that is not open";
    check(b, opens(&ledger, 1) && opens(&ledger, 2), "two openings");
    noted(b, &ledger, CALL_IN, CONNECT_IND_TO("0", "1"));
    noted(b, &ledger, ASKING("0"), "a 1 00000002");
    noted(b, &ledger, ASKING("0"), "a 1 00000000");
    noted(b, &ledger, ASKING("1"), "a 0 00000001");
    noted(b, &ledger, ASKING("0"), "d 0 00000002 00000000");
    noted(b, &ledger, ASKING("0"), "d 1 00000001 00000000");
    noted(b, &ledger, "W 1 00000001 00000000", DISCONNECT_IND_TO("1", "1"));
    noted(b, &ledger, "X 0", "d 0 00000003 00000000; d 0 00000001 00000000;"
                             "d 0 00000001 00000000");
    tells(b, &ledger, "call 0 1 1 1 dropped\n"
                      "opening 0 1 1 2 1 0 3 0\n"
                      "opening 1 1 0 1 1 1 0 0\n"
                      "total 2 1 3 2 1 3 0\n");
}

/* It is the record in that makes a fate of an a or a d. */
static void test_no_fate(struct bench *b)
{
    struct ledger ledger = new_ledger();

    b->topic = "faults: records that tell no fate";
    check(b, opens(&ledger, 1), "opening");
    noted(b, &ledger, CALL_IN, CONNECT_IND_TO("0", "1"));
    noted(b, &ledger, "X 0", "a 0 00000001");
    noted(b, &ledger, "O", "a 0 00000001");
    noted(b, &ledger, "W 0 00000001 00000000", "d 0 00000001 00000000");
    noted(b, &ledger, ASKING("0"), "d 0 00000000 00000001");
    noted(b, &ledger, "X 0", "d 0 00000000 00000001");
    noted(b, &ledger, "D 0 00000001", DISCONNECT_IND_TO("0", "0"));
    noted(b, &ledger, ASKING("0"), "r 0; s 0; F 0; c 0 00000000000001");
    /* The datagram and the data hold what would be an a or a CONNECT_IND. */
    noted(b, &ledger, ASKING("0"), "u 0 6100000000010000; M 0 610000000001;"
                                   "M 0 0000000e00000007; F 0");
    noted(b, &ledger, CALL_IN, "P 0 00000008 0000000e; M 0 640000000001");
    check(b, writes(&ledger, ASKING("0"), "a 0 00000001", REFUSED_EVENT),
          "refused");
    tells(b, &ledger, "call 0 1 1 1 open\n"
                      "opening 0 1 1 0 0 0 0 1\n"
                      "total 1 1 0 0 0 0 1\n");
}

/* The next opening has none of the calls that the one before left open. */
static void test_opened_with_calls(struct bench *b)
{
    struct ledger ledger = new_ledger();

    b->topic = "faults: an opening that begins with calls open";
    check(b, opens(&ledger, 16), "opening");
    noted(b, &ledger, CALL_IN, CONNECT_IND_TO("15", "1"));
    noted(b, &ledger, CALL_IN, CONNECT_IND_TO("15", "2"));
    check(b, opens(&ledger, 16), "opened again");
    noted(b, &ledger, CALL_IN, CONNECT_IND_TO("15", "3"));
    noted(b, &ledger, ASKING("15"), "d 15 00000001 00000000");
    noted(b, &ledger, ASKING("15"), "d 15 00000003 00000000");
    tells(b, &ledger, "call 15 1 1 1 open\n"
                      "call 15 1 2 2 open\n"
                      "opening 15 1 2 0 0 0 0 2\n"
                      "call 15 2 1 3 denied\n"
                      "opening 15 2 1 0 2 0 0 0\n"
                      "total 2 3 0 2 0 0 2\n");
}

/* An indication is told by its code, also if it goes up as M_PCPROTO. */
static void test_wrong_kind(struct bench *b)
{
    struct ledger ledger = new_ledger();

    b->topic = "faults: indications of the wrong kind";
    check(b, opens(&ledger, 1), "opening");
    noted(b, &ledger, CALL_IN, "C 0 0000000e 00000001");
    noted(b, &ledger, CALL_IN, "C 0 0000000e 00000002");
    noted(b, &ledger, "W 0 00000001 00000000",
          "C 0 00000014 00000701 00000000 00000001");
    tells(b, &ledger, "call 0 1 1 1 withdrawn\n"
                      "call 0 1 2 2 open\n"
                      "opening 0 1 2 0 0 1 0 1\n"
                      "total 1 2 0 0 1 0 1\n");
}

/* A number that rings in twice is that of the older call. */
static void test_number_twice(struct bench *b)
{
    struct ledger ledger = new_ledger();

    b->topic = "faults: one number for two calls";
    check(b, opens(&ledger, 1), "opening");
    noted(b, &ledger, CALL_IN, CONNECT_IND_TO("0", "7"));
    noted(b, &ledger, CALL_IN, CONNECT_IND_TO("0", "7"));
    noted(b, &ledger, ASKING("0"), "a 0 00000007");
    tells(b, &ledger, "call 0 1 1 7 accepted\n"
                      "call 0 1 2 7 open\n"
                      "opening 0 1 2 1 0 0 0 1\n"
                      "total 1 2 1 0 0 0 1\n");
}

static void test_no_place(struct bench *b)
{
    struct ledger ledger = new_ledger();

    b->topic = "faults: records without a place";
    check(b, opens(&ledger, 1), "opening");
    check(b, !opens(&ledger, 17), "stream 16 opened");
    check(b, !writes(&ledger, CALL_IN, CONNECT_IND_TO("1", "1"), SERVED),
          "a call to a stream that was never opened");
    check(b, !writes(&ledger, CALL_IN, CONNECT_IND_TO("16", "1"), SERVED),
          "a call to stream 16");
    check(b, !writes(&ledger, ASKING("1"), "a 0 00000001", SERVED),
          "an accept from a stream that was never opened");
    check(b, !writes(&ledger, "X 1", "d 255 00000001 00000000", SERVED),
          "a d for stream 255");
    for (unsigned i = 0; i < 8; i++)
        noted(b, &ledger, CALL_IN, CONNECT_IND_TO("0", "1"));
    check(b, !writes(&ledger, CALL_IN, CONNECT_IND_TO("0", "1"), SERVED),
          "a ninth open call");
    fclose(ledger.out);
}

void run_faults(struct bench *b)
{
    test_number_not_open(b);
    test_no_fate(b);
    test_opened_with_calls(b);
    test_wrong_kind(b);
    test_number_twice(b);
    test_no_place(b);
}
