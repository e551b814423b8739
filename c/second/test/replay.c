/* replay.c - tests what the replay program prints, and where reading ends. */
#include <stdint.h>
#include <stdio.h>
#include <string.h>

#include "bench.h"
#include "groups.h"
#include "printing.h"
#include "../replay.h"

static void replays(struct bench *b, const uint8_t *input, size_t size,
                    const char *wanted, const char *what)
{
    prints(b, second_replay, input, size, wanted, what);
}

static void replays_text(struct bench *b, const char *input, const char *wanted)
{
    prints_text(b, second_replay, input, wanted);
}

static void test_replay_examples(struct bench *b)
{
    b->topic = "replay";
    replays_text(b,
        "G 00000001 020000000001; O; P 0 0000000b 00000001;"
        "P 0 00000001 00000080 00000002 0001 0000 00000000;"
        "I 00000001 02000000000180 02000000000284",
        "dlpi replay\n"
        "1 ok\n"
        "2 open 0\n"
        "3 C 0 000000060000000b\n"
        "4 C 0 00000004000000800000000700000018000000020000000002000000000180\n"
        "5 P 0 0000000e000000010000000700000024000000070000002b"
        "0000000000000000000000000200000000018002000000000284\n"
        "5 records, 0 refused\n");
    replays_text(b, "", "dlpi replay\n0 records, 0 refused\n");
    replays_text(b, "X 0; O; X 0",
        "dlpi replay\n1 refused 2\n2 open 0\n3 ok\n3 records, 1 refused\n");
}

/* One line of each kind out. */
static void test_replay_kinds(struct bench *b)
{
    b->topic = "replay of each kind";
    replays_text(b,
        "G 00000001 020000000001; O; O; P 1 0000000b 00000001;"
        "P 1 00000001 00000080 00000001 0001 0000 00000000;"
        "P 1 0000000d " CONNECT_FIELDS " 02000000000984;"
        "A 1 02000000000984; P 1 00000017; S 1; R 1 00000007; P 1 00000019;"
        "P 1 00000013 000000ab 00000000;"
        "I 00000001 02000000000180 02000000000284;"
        "P 1 0000000f 00000001 00000000 00000000 00000000 00000000; X 1",
        "dlpi replay\n"
        "1 ok\n"
        "2 open 0\n"
        "3 open 1\n"
        "4 C 1 000000060000000b\n"
        "5 C 1 00000004000000800000000700000018000000010000000002000000000180\n"
        "6 c 1 02000000000984\n"
        "7 P 1 000000100000000700000018000000000000000000000000"
        "02000000000984\n"
        "8 r 1\n"
        "9 F 1\n"
        "9 P 1 0000001a\n"
        "10 F 1\n"
        "10 P 1 000000180000070100000007\n"
        "11 s 1\n"
        "11 C 1 0000000600000019\n"
        "12 d 1 00000000000000ab\n"
        "12 F 1\n"
        "12 C 1 0000000600000013\n"
        "13 P 1 0000000e000000010000000700000024000000070000002b"
        "0000000000000000000000000200000000018002000000000284\n"
        "14 a 1 00000001\n"
        "14 C 1 000000060000000f\n"
        "15 d 1 0000000000000000\n"
        "15 records, 0 refused\n");
}

/* Unknown kinds and cut records end the reading, padding doesn't. */
static void test_replay_ends(struct bench *b)
{
    uint8_t bytes[2 * 99 + 3];

    b->topic = "replay where reading ends";
    replays(b, (const uint8_t *)"OZO", 3,
            "dlpi replay\n1 open 0\n2 refused 10\n2 records, 1 refused\n",
            "unknown kind");
    replays(b, (const uint8_t *)"OG\0\0\0\1\2\0\0\0\0", 11,
            "dlpi replay\n1 open 0\n2 refused 10\n2 records, 1 refused\n",
            "cut record");
    bytes[0] = 'O';
    message(bytes + 1, 0, 4, "00000011 01");
    message(bytes + 100, 0, 97, "00000011 01");
    bytes[199] = 'O';
    bytes[200] = 'X';
    replays(b, bytes, sizeof bytes,
            "dlpi replay\n1 open 0\n2 refused 10\n3 refused 5\n4 open 1\n"
            "5 refused 10\n5 records, 3 refused\n",
            "nonzero padding, L 97, a cut X");
}

/*
 * Longer than a buffer for reading may be, and with every shift of the records
 * against it: some O's of 1 byte, then messages of 99 bytes.
 */
static void test_replay_long(struct bench *b)
{
    enum { SHIFTS = 99, MESSAGES = 700 };
    static uint8_t input[SHIFTS + 99 * MESSAGES];
    static char wanted[64 + 64 * (SHIFTS + MESSAGES)];

    b->topic = "replay of a long input";
    for (unsigned shift = 1; shift <= SHIFTS; shift++) {
        char *end = wanted;
        unsigned n = 0;

        memset(input, 'O', shift);
        end += sprintf(end, "dlpi replay\n");
        while (n++ < shift)
            end += n <= 16 ? sprintf(end, "%u open %u\n", n, n - 1)
                           : sprintf(end, "%u refused 3\n", n);
        for (unsigned i = 0; i < MESSAGES; i++, n++) {
            message(input + shift + 99 * i, 0, 4, "00000011");
            end += sprintf(end, "%u C 0 0000001200000001\n", n);
        }
        sprintf(end, "%u records, %u refused\n", shift + MESSAGES,
                shift > 16 ? shift - 16 : 0);
        replays(b, input, shift + 99 * MESSAGES, wanted, "O's and messages");
    }
}

void run_replay(struct bench *b)
{
    test_replay_examples(b);
    test_replay_kinds(b);
    test_replay_ends(b);
    test_replay_long(b);
}
