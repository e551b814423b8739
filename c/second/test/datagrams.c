/*
 * datagrams.c - tests the answers to datagrams: those that are served, BADPRIM
 * of a short one, and UDERROR_IND with OUTSTATE and BADADDR.
 */
#include <stdint.h>
#include <stdio.h>
#include <string.h>

#include "bench.h"
#include "datagrams.h"
#include "groups.h"

enum {
    PAIR = 166,
    BLOCK = 3,
    DATA_LENGTH = 101,
    DATA_BYTES = 102
};

static void start_on(struct bench *b, const char *slot)
{
    start(b);
    stand(b, 2, slot);
}

/* Served, and no stream changes. */
static void sent(struct bench *b, const char *in, const char *out)
{
    serve(b, in, out);
    same_table(b, in);
}

static void test_served(struct bench *b)
{
    b->topic = "datagrams that are served";
    start_on(b, BOARD_SLOT);
    sent(b, TO_SAP("84") DATA_OF_2, "u 2 02000000000284; M 2 6869");
    check(b, memcmp(room_of(b), "u\2\7\2\0\0\0\0\2\x84\0M\2\2hi\0", 17) == 0,
          "the first 17 bytes of the two records");
    sent(b, "C 2 00000007 00000007 00000014 00000000 00000000 02000000000284;"
            "M 2 6869", "u 2 02000000000284; M 2 6869");
    sent(b, "P 2 00000007 00000007 00000014 ffffffff ffffffff 02000000000280;"
            "M 2 6869", "u 2 02000000000280; M 2 6869");
    sent(b, "P 2 00000007 00000007 00000014 00000000 00000000 ffffffffffff00;"
            "M 2 ff", "u 2 ffffffffffff00; M 2 ff");
    sent(b, "P 2 00000007 00000007 00000014 00000000 00000000 00000000000084"
            " 85ff; M 2 6869", "u 2 00000000000084; M 2 6869");
    sent(b, "P 2 00000007 00000007 00000016 00000000 00000000 8585"
            " 02000000000284; M 2 6869", "u 2 02000000000284; M 2 6869");

    start_on(b, TYPE_SLOT);
    sent(b, TO_TYPE("0800") DATA_OF_2, "u 2 0200000000020800; M 2 6869");
    check(b, memcmp(room_of(b), "u\2\x8\2\0\0\0\0\2\x8\0M\2\2hi\0", 17) == 0,
          "the first 17 bytes of the two records");
    sent(b, TO_TYPE("88a4") DATA_OF_2, "u 2 02000000000288a4; M 2 6869");
    sent(b, "C 2 00000007 00000008 00000015 00000001 00000002 85"
            " 0200000000020801; M 2 6869", "u 2 0200000000020801; M 2 6869");

    start(b);
    stand(b, 0, BOARD_SLOT);
    stand(b, 15, "06 02 ffff 00000002");
    sent(b, "P 0 00000007 00000007 00000014 00000000 00000000 02000000000284;"
            "M 0 00", "u 0 02000000000284; M 0 00");
    sent(b, "P 15 00000007 00000008 00000014 00000000 00000000"
            " 0200000000020800; M 15 00", "u 15 0200000000020800; M 15 00");
}

/* Data of each length up to 64; that of length 0 is right. */
static void test_data(struct bench *b)
{
    uint8_t pair[PAIR];

    b->topic = "data of datagrams";
    start_on(b, BOARD_SLOT);
    sent(b, TO_SAP("84") "M 2", "u 2 02000000000284; M 2");
    parse_records(TO_SAP("84") "M 2", pair);
    for (unsigned length = 0; length <= 64; length++) {
        char out[LONGEST_TEXT];
        char *end = out + sprintf(out, "u 2 02000000000284; M 2 ");

        pair[DATA_LENGTH] = (uint8_t)length;
        for (unsigned i = 0; i < length; i++) {
            pair[DATA_BYTES + i] = (uint8_t)(i + 1);
            end += sprintf(end, "%02x", i + 1);
        }
        serve_bytes(b, pair, PAIR, 0, out, "data");
        same_table(b, "data");
    }
}

/* The address may stand anywhere from offset 20 on. */
static void test_offsets(struct bench *b)
{
    uint8_t pair[PAIR];

    b->topic = "offsets of datagrams";
    start_on(b, BOARD_SLOT);
    for (unsigned offset = 0; offset < 256; offset++) {
        parse_records(TO_SAP("85") DATA_OF_2, pair);
        pair[2] = 96;
        pair[BLOCK + 11] = (uint8_t)offset;
        if (offset >= 20 && offset <= 89) {
            hex("0a0b0c0d0e0f84", pair + BLOCK + offset);
            serve_bytes(b, pair, PAIR, 0, "u 2 0a0b0c0d0e0f84; M 2 6869",
                        "offset 20 to 89, L 96");
        } else {
            uderror_bytes(b, pair, PAIR, BADADDR, "offset under 20, over 89");
        }
    }
    start_on(b, TYPE_SLOT);
    for (unsigned offset = 0; offset < 256; offset++) {
        parse_records(TO_TYPE("0080") DATA_OF_2, pair);
        pair[2] = 96;
        pair[BLOCK + 11] = (uint8_t)offset;
        if (offset >= 20 && offset <= 88) {
            hex("0a0b0c0d0e0f0800", pair + BLOCK + offset);
            serve_bytes(b, pair, PAIR, 0, "u 2 0a0b0c0d0e0f0800; M 2 6869",
                        "offset 20 to 88, L 96");
        } else {
            uderror_bytes(b, pair, PAIR, BADADDR, "offset under 20, over 88");
        }
    }
}

/* A short one stays BADPRIM, by ERROR_ACK, whatever the state. */
static void test_short(struct bench *b)
{
    uint8_t pair[PAIR];

    b->topic = "datagrams under 20 bytes";
    for (size_t i = 0; i < STANDINGS; i++) {
        start_on(b, standings[i]);
        for (uint8_t length = 4; length < 20; length++) {
            parse_records("P 2 00000007; M 2 6869", pair);
            pair[2] = length;
            error_bytes(b, pair, PAIR, BADPRIM, "L 4 to 19");
            pair[0] = 'C';
            error_bytes(b, pair, PAIR, BADPRIM, "C, L 4 to 19");
        }
    }
    start_on(b, BOARD_SLOT);
    error(b, "P 2 00000007; M 2 6869", BADPRIM);
    error(b, "P 2 00000007 00000007 00000014 00000000 000000; M 2 6869",
          BADPRIM);
    uderror(b, "P 2 00000007 00000007 00000014 00000000 00000000; M 2 6869",
            BADADDR);
}

/* OUTSTATE unless in state 6 and mode 2. It comes before BADADDR. */
static void test_states(struct bench *b)
{
    static const char *const idle_in_mode_1[] = {
        "06 01 0080 00000001 00", "06 01 0084 00000002 08",
    };

    b->topic = "datagrams in each state";
    for (size_t i = 0; i < STANDINGS; i++) {
        if (strcmp(standings[i], TYPE_SLOT) == 0)
            continue;
        start_on(b, standings[i]);
        uderror(b, TO_SAP("84") DATA_OF_2, OUTSTATE);
        uderror(b, TO_TYPE("0800") DATA_OF_2, OUTSTATE);
        uderror(b, "P 2 00000007 00000000 00000000 00000000 00000000; M 2",
                OUTSTATE);
        uderror(b, "C 2 00000007 ffffffff ffffffff ffffffff ffffffff ff; M 2",
                OUTSTATE);
    }
    for (size_t i = 0; i < COUNT(idle_in_mode_1); i++) {
        start_on(b, idle_in_mode_1[i]);
        uderror(b, TO_SAP("84") DATA_OF_2, OUTSTATE);
    }
    start_on(b, "00");
    uderror(b, TO_SAP("84") DATA_OF_2, OUTSTATE);
    check(b, memcmp(room_of(b), "P\2\x14\0\0\0\x9\0\0\0\0\0\0\0\0\0\0\0\0\0\0"
                                "\0\3\0", 24) == 0,
          "L 20 and the fields of UDERROR_IND");
}

static void test_bad_addresses_of_a_sap(struct bench *b)
{
    b->topic = "bad addresses, bound to a SAP";
    start_on(b, BOARD_SLOT);
    /* The length is not that of the stream's own form. */
    uderror(b, TO_TYPE("0800") DATA_OF_2, BADADDR);
    uderror(b, TO_TYPE("8484") DATA_OF_2, BADADDR);
    uderror(b, "P 2 00000007 00000006 00000014 00000000 00000000"
               " 02000000000284; M 2", BADADDR);
    uderror(b, "P 2 00000007 00000000 00000014 00000000 00000000"
               " 02000000000284; M 2", BADADDR);
    uderror(b, "P 2 00000007 00000107 00000014 00000000 00000000"
               " 02000000000284; M 2", BADADDR);
    uderror(b, "P 2 00000007 07000000 00000014 00000000 00000000"
               " 02000000000284; M 2", BADADDR);
    uderror(b, "P 2 00000007 ffffffff 00000014 00000000 00000000"
               " 02000000000284; M 2", BADADDR);
    /* The offset is under 20. */
    uderror(b, "P 2 00000007 00000007 00000013 00000000 00000000"
               " 02000000000284; M 2", BADADDR);
    uderror(b, "P 2 00000007 00000007 00000000 00000000 00000000"
               " 02000000000284; M 2", BADADDR);
    /* The end is beyond L. */
    uderror(b, "P 2 00000007 00000007 00000015 00000000 00000000"
               " 02000000000284; M 2", BADADDR);
    uderror(b, "P 2 00000007 00000007 00000014 00000000 00000000"
               " 020000000002; M 2", BADADDR);
    uderror(b, "P 2 00000007 00000007 0000001b 00000000 00000000"
               " 02000000000284; M 2", BADADDR);
    /* The sum would wrap. */
    uderror(b, "P 2 00000007 00000007 ffffffff 00000000 00000000"
               " 02000000000284; M 2", BADADDR);
    uderror(b, "P 2 00000007 00000007 fffffff9 00000000 00000000"
               " 02000000000284; M 2", BADADDR);
    uderror(b, "P 2 00000007 00000007 fffffffa 00000000 00000000"
               " 02000000000284; M 2", BADADDR);
    uderror(b, "P 2 00000007 00000007 01000014 00000000 00000000"
               " 02000000000284; M 2", BADADDR);
}

static void test_bad_addresses_of_a_type(struct bench *b)
{
    b->topic = "bad addresses, bound to a type";
    start_on(b, TYPE_SLOT);
    uderror(b, TO_SAP("84") DATA_OF_2, BADADDR);
    uderror(b, "P 2 00000007 00000007 00000014 00000000 00000000"
               " 0200000000020800; M 2", BADADDR);
    uderror(b, "P 2 00000007 00000009 00000014 00000000 00000000"
               " 020000000002080000; M 2", BADADDR);
    uderror(b, "P 2 00000007 00000008 00000013 00000000 00000000"
               " 0200000000020800; M 2", BADADDR);
    uderror(b, "P 2 00000007 00000008 00000015 00000000 00000000"
               " 0200000000020800; M 2", BADADDR);
    uderror(b, "P 2 00000007 00000008 00000014 00000000 00000000"
               " 02000000000208; M 2", BADADDR);
    uderror(b, "P 2 00000007 00000008 fffffff8 00000000 00000000"
               " 0200000000020800; M 2", BADADDR);
    uderror(b, "P 2 00000007 00000008 ffffffff 00000000 00000000"
               " 0200000000020800; M 2", BADADDR);
}

/* One byte is a SAP: an even number but 0x06. */
static void test_saps(struct bench *b)
{
    b->topic = "SAPs of datagrams";
    start_on(b, BOARD_SLOT);
    for (unsigned sap = 0; sap < 256; sap++) {
        char in[LONGEST_TEXT];
        char out[LONGEST_TEXT];

        snprintf(in, sizeof in, "P 2 00000007 00000007 00000014 00000000"
                 " 00000000 020000000002%02x; M 2 6869", sap);
        snprintf(out, sizeof out, "u 2 020000000002%02x; M 2 6869", sap);
        if (sap % 2 == 1 || sap == 6)
            uderror(b, in, BADADDR);
        else
            sent(b, in, out);
    }
}

/* Two bytes are a type from 0x600. */
static void test_types(struct bench *b)
{
    static const unsigned types[] = {
        0x0000, 0x0006, 0x0080, 0x0084, 0x00ff, 0x0100, 0x0500, 0x05fe, 0x05ff,
        0x0600, 0x0601, 0x06ff, 0x0800, 0x0806, 0x8000, 0x8137, 0xff00, 0xfffe,
        0xffff,
    };

    b->topic = "types of datagrams";
    start_on(b, TYPE_SLOT);
    for (size_t i = 0; i < COUNT(types); i++) {
        char in[LONGEST_TEXT];
        char out[LONGEST_TEXT];

        snprintf(in, sizeof in, "P 2 00000007 00000008 00000014 00000000"
                 " 00000000 020000000002%04x; M 2 6869", types[i]);
        snprintf(out, sizeof out, "u 2 020000000002%04x; M 2 6869", types[i]);
        if (types[i] < 0x600)
            uderror(b, in, BADADDR);
        else
            sent(b, in, out);
    }
}

void run_datagrams(struct bench *b)
{
    test_served(b);
    test_data(b);
    test_offsets(b);
    test_short(b);
    test_states(b);
    test_bad_addresses_of_a_sap(b);
    test_bad_addresses_of_a_type(b);
    test_saps(b);
    test_types(b);
}
