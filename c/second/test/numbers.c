/* numbers.c - tests which correlation number a call takes. */
#include <stdint.h>
#include <stdio.h>

#include "bench.h"
#include "groups.h"

static void call_takes(struct bench *b, const char *number)
{
    char out[LONGEST_TEXT];

    snprintf(out, sizeof out,
             "P 2 0000000e %s 00000007 00000024 00000007 0000002b 00000000"
             " 00000000 00000000 02000000000180 02000000000284",
             number);
    serve(b, "I 00000001 02000000000180 02000000000284", out);
}

static void start_counter(struct bench *b, uint32_t counter, const char *slot)
{
    start(b);
    put_number(table_of(b) + COUNTER, counter);
    stand(b, 2, slot);
}

static void test_counter_wraps(struct bench *b)
{
    b->topic = "the counter wraps";
    start_counter(b, 0xffffffff, "06 01 0080 00000001 08");
    call_takes(b, "ffffffff");
    put_open(b->want, 2, "09 01 0080 00000001 08 01 ffffffff");
    put_number(b->want + COUNTER, 0);
    same_table(b, "one past 4294967295 is 0");
    call_takes(b, "00000001");
    put_open(b->want, 2, "09 01 0080 00000001 08 02 ffffffff 00000001");
    put_number(b->want + COUNTER, 2);
    same_table(b, "0 is passed over");

    start_counter(b, 0xfffffffe, "09 01 0080 00000001 08 03 ffffffff 00000001"
                                 " 00000003");
    call_takes(b, "fffffffe");
    put_open(b->want, 2, "09 01 0080 00000001 08 04 ffffffff 00000001 00000003"
                         " fffffffe");
    put_number(b->want + COUNTER, 0xffffffff);
    same_table(b, "the counter may stand at an open number");
    call_takes(b, "00000002");
    put_open(b->want, 2, "09 01 0080 00000001 08 05 ffffffff 00000001 00000003"
                         " fffffffe 00000002");
    put_number(b->want + COUNTER, 3);
    same_table(b, "open numbers and 0 are passed over at the wrap");
    call_takes(b, "00000004");
    put_open(b->want, 2, "09 01 0080 00000001 08 06 ffffffff 00000001 00000003"
                         " fffffffe 00000002 00000004");
    put_number(b->want + COUNTER, 5);
    same_table(b, "an open number is passed over");
}

static void test_numbers_of_other_streams(struct bench *b)
{
    b->topic = "numbers open on other streams";
    start_counter(b, 0xffffffff, "06 01 0080 00000001 08");
    stand(b, 0, "09 01 0082 00000001 08 02 00000001 ffffffff");
    stand(b, 15, "09 01 0080 00000002 08 01 00000002");
    call_takes(b, "00000003");
    put_open(b->want, 2, "09 01 0080 00000001 08 01 00000003");
    put_number(b->want + COUNTER, 4);
    same_table(b, "passed over too");

    serve(b, "X 15", "d 15 00000002 00000000");
    put_number(table_of(b) + COUNTER, 1);
    call_takes(b, "00000002");
    put_open(b->want, 2, "09 01 0080 00000001 08 02 00000003 00000002");
    put_number(b->want + COUNTER, 3);
    same_table(b, "a number that is open no more is taken again");
}

/* Refused calls and other calls leave the counter alone. */
static void test_counter_stays(struct bench *b)
{
    b->topic = "the counter stays";
    start_counter(b, 0, "09 01 0080 00000001 01 01 00000005");
    refuse(b, "I 00000001 02000000000180 02000000000284", 8);
    refuse(b, "I 00000001 02000000000182 02000000000284", 7);
    serve(b, "W 2 00000005 00000000",
          "P 2 00000014 00000701 00000000 00000005");
    put_open(b->want, 2, "06 01 0080 00000001 01");
    same_table(b, "W");
    call_takes(b, "00000001");
    put_open(b->want, 2, "09 01 0080 00000001 01 01 00000001");
    put_number(b->want + COUNTER, 2);
    same_table(b, "from 0 on");
}

void run_numbers(struct bench *b)
{
    test_counter_wraps(b);
    test_numbers_of_other_streams(b);
    test_counter_stays(b);
}
