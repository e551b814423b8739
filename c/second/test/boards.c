/*
 * boards.c - tests what the commands print of captures with datagrams and
 * frames, and that they read datagrams rightly wherever a buffer ends.
 */
#include <stdint.h>
#include <stdio.h>
#include <string.h>

#include "bench.h"
#include "callers.h"
#include "datagrams.h"
#include "groups.h"
#include "printing.h"
#include "../capture.h"
#include "../fates.h"
#include "../replay.h"

enum {
    CONTROL = 99,
    DATA = 67,
    PAIR = 166
};

/* The zeros past the length of an M's 2 bytes, and past no byte at all. */
#define ZEROS_31                                                        \
    "00000000000000000000000000000000000000000000000000000000000000"
#define ZEROS_62 ZEROS_31 ZEROS_31
#define ZEROS_64 ZEROS_62 "0000"

#define BOARD_ACK(s) \
    "C " s " 00000004000000800000000700000018000000000000000002000000000180\n"

/* A PPA is added, and stream 0 opened, attached and bound to SAP 0x80. */
#define ONE_BOARD ADD_PPA_1 "O;" BOARD("0", "0080")
#define ONE_BOARD_LINES \
    "dlpi replay\n1 ok\n2 open 0\n3 C 0 000000060000000b\n4 " BOARD_ACK("0")

/* A datagram of stream 0. */
#define SEND "P 0 00000007 00000007 00000014 00000000 00000000" \
    " 02000000000284; M 0 6869;"

/* The paper's example, byte by byte. */
static void test_example(struct bench *b)
{
    static const struct {
        uint8_t add[11], open[1], attach[CONTROL], bind[CONTROL];
        uint8_t right[CONTROL], hi[DATA], wrong[CONTROL], hi_again[DATA];
        uint8_t frame[87], alone[DATA];
    } input = {
        .add = { 'G', 0, 0, 0, 1, 2, 0, 0, 0, 0, 1 },
        .open = { 'O' },
        .attach = { 'P', 0, 8, 0, 0, 0, 0x0b, 0, 0, 0, 1 },
        .bind = { 'P', 0, 20, 0, 0, 0, 0x01, 0, 0, 0, 0x80, 0, 0, 0, 0,
                  0, 2, 0, 0, 0, 0, 0, 0 },
        .right = { 'P', 0, 27, 0, 0, 0, 0x07, 0, 0, 0, 7, 0, 0, 0, 20,
                   0, 0, 0, 0, 0, 0, 0, 0, 2, 0, 0, 0, 0, 2, 0x84 },
        .hi = { 'M', 0, 2, 0x68, 0x69 },
        .wrong = { 'P', 0, 27, 0, 0, 0, 0x07, 0, 0, 0, 7, 0, 0, 0, 20,
                   0, 0, 0, 0, 0, 0, 0, 0, 2, 0, 0, 0, 0, 2, 0x85 },
        .hi_again = { 'M', 0, 2, 0x68, 0x69 },
        .frame = { 'f', 0, 0, 0, 1, 7, 2, 0, 0, 0, 0, 1, 0x80, 0,
                   2, 0, 0, 0, 0, 2, 0x84, 0, 2, 0x75, 0x70 },
        .alone = { 'M', 0, 2, 0x68, 0x69 },
    };

    b->topic = "replay: datagrams and a frame";
    prints(b, second_replay, (const uint8_t *)&input, sizeof input,
        "dlpi replay\n"
        "1 ok\n"
        "2 open 0\n"
        "3 C 0 000000060000000b\n"
        "4 C 0 00000004000000800000000700000018000000000000000002000000000180\n"
        "5 u 0 070200000000028400\n"
        "5 M 0 026869" ZEROS_62 "\n"
        "6 P 0 0000000900000000000000000000000000000001\n"
        "7 P 0 000000080000000700000018000000070000001f00000000"
        "0200000000018002000000000284\n"
        "7 M 0 027570" ZEROS_62 "\n"
        "8 refused 10\n"
        "8 records, 1 refused\n", "the example");
}

static void test_replay_forms(struct bench *b)
{
    b->topic = "replay: the other form, and no data";
    prints_text(b, second_replay,
        ADD_PPA_1 "O; O; O;" BOARD("2", "0800") TO_TYPE("0806") "M 2;"
        "P 2 00000007; M 2;" TYPE_FRAME SAP_FRAME
        "f 00000009 08 0200000000010800 0200000000028137 02 7570",
        "dlpi replay\n"
        "1 ok\n"
        "2 open 0\n"
        "3 open 1\n"
        "4 open 2\n"
        "5 C 2 000000060000000b\n"
        "6 C 2 000000040000080000000008000000180000000000000000"
        "0200000000010800\n"
        "7 u 2 080200000000020806\n"
        "7 M 2 00" ZEROS_64 "\n"
        "8 C 2 00000005000000070000000900000000\n"
        "9 P 2 000000080000000800000018000000080000002000000000"
        "02000000000108000200000000028137\n"
        "9 M 2 027570" ZEROS_62 "\n"
        "10 ok\n"
        "11 refused 7\n"
        "11 records, 1 refused\n");
}

/* Opens all streams and binds each to SAP 0x80. Returns the size. */
static size_t all_boards(uint8_t *input, char **end)
{
    size_t size = parse_records(ADD_PPA_1, input);
    unsigned n = 1;

    *end += sprintf(*end, "dlpi replay\n1 ok\n");
    for (unsigned s = 0; s < 16; s++) {
        uint8_t *board = input + size + 1;

        size += parse_records("O;" BOARD("0", "0080"), input + size);
        board[1] = (uint8_t)s;
        board[CONTROL + 1] = (uint8_t)s;
        *end += sprintf(*end, "%u open %u\n%u C %u 000000060000000b\n"
                        "%u C %u 0000000400000080000000070000001800000000"
                        "0000000002000000000180\n",
                        n + 1, s, n + 2, s, n + 3, s);
        n += 3;
    }
    return size;
}

static void test_replay_of_all_streams(struct bench *b)
{
    static uint8_t input[LONGEST_TEXT];
    static char wanted[2 * LONGEST_TEXT];
    char *end = wanted;
    size_t size = all_boards(input, &end);

    b->topic = "replay: a frame to all streams";
    size += parse_records(SAP_FRAME, input + size);
    for (unsigned s = 0; s < 16; s++)
        end += sprintf(end, "50 P %u 000000080000000700000018000000070000001f"
                       "000000000200000000018002000000000284\n"
                       "50 M %u 027570" ZEROS_62 "\n", s, s);
    sprintf(end, "50 records, 0 refused\n");
    prints(b, second_replay, input, size, wanted, "16 streams");
}

/*
 * The lines of some O's, of which the first finds stream 1 free. Returns how
 * many are refused.
 */
static unsigned long print_opens(char **end, unsigned n, unsigned count)
{
    for (unsigned i = 1; i <= count; i++, n++)
        *end += i <= 15 ? sprintf(*end, "%u open %u\n", n, i)
                        : sprintf(*end, "%u refused 3\n", n);
    return count > 15 ? count - 15 : 0;
}

/*
 * Longer than a buffer, and with every shift of the records against it: some
 * O's of 1 byte, then datagrams, each with a control record behind it that has
 * an M of another stream.
 */
static void test_shifts(struct bench *b)
{
    enum { UNIT = PAIR + CONTROL + DATA, UNITS = 30 };
    static uint8_t input[LONGEST_TEXT + UNIT + UNITS * UNIT];
    static char wanted[LONGEST_TEXT + 64 * UNIT + 512 * UNITS];

    b->topic = "replay: datagrams across a buffer's end";
    for (unsigned shift = 1; shift <= UNIT; shift++) {
        size_t size = parse_records(ONE_BOARD, input);
        char *end = wanted + sprintf(wanted, ONE_BOARD_LINES);
        unsigned long refused = print_opens(&end, 5, shift);
        unsigned n = 5 + shift;

        memset(input + size, 'O', shift);
        size += shift;
        for (unsigned i = 0; i < UNITS; i++, n += 3) {
            size += parse_records(SEND SEND, input + size);
            input[size - DATA + 1] = 1;
            end += sprintf(end, "%u u 0 070200000000028400\n"
                           "%u M 0 026869" ZEROS_62 "\n"
                           "%u refused 10\n%u refused 10\n",
                           n, n, n + 1, n + 2);
        }
        sprintf(end, "%u records, %lu refused\n", n - 1, refused + 2 * UNITS);
        prints(b, second_replay, input, size, wanted, "shifted");
    }
}

/*
 * What replay prints of a datagram that is cut to that size. Returns how many
 * calls it makes.
 */
static unsigned print_cut(char **end, unsigned n, size_t size)
{
    if (size == 0)
        return 0;
    if (size == PAIR) {
        *end += sprintf(*end, "%u u 0 070200000000028400\n"
                        "%u M 0 026869" ZEROS_62 "\n", n, n);
        return 1;
    }
    *end += sprintf(*end, "%u refused 10\n", n);
    if (size <= CONTROL)
        return 1;
    *end += sprintf(*end, "%u refused 10\n", n + 1); /* the cut M */
    return 2;
}

/* The input ends within a datagram, some O's before it or none. */
static void ends_within(struct bench *b, size_t cut, unsigned opens)
{
    static uint8_t input[LONGEST_TEXT + CAPTURE_BUFFER_SIZE];
    static char wanted[LONGEST_TEXT + 32 * CAPTURE_BUFFER_SIZE];
    size_t size = parse_records(ONE_BOARD, input);
    char *end = wanted + sprintf(wanted, ONE_BOARD_LINES);
    unsigned long refused = print_opens(&end, 5, opens);
    unsigned calls = print_cut(&end, 5 + opens, cut);

    memset(input + size, 'O', opens);
    size += opens;
    parse_records(SEND, input + size);
    refused += cut == PAIR ? 0 : calls;
    sprintf(end, "%u records, %lu refused\n", 4 + opens + calls, refused);
    prints(b, second_replay, input, size + cut, wanted, "cut");
}

static void test_ends(struct bench *b)
{
    static const size_t cuts[] = { 1, 98, 99, 100, 101, 165, 166 };
    const unsigned head = 11 + 1 + 2 * CONTROL; /* the size of ONE_BOARD */

    b->topic = "replay: the input ends within a datagram";
    for (size_t cut = 0; cut <= PAIR; cut++)
        ends_within(b, cut, 0);

    b->topic = "replay: it ends there, and a buffer ends there too";
    for (size_t i = 0; i < COUNT(cuts); i++) {
        unsigned opens = CAPTURE_BUFFER_SIZE - head - (unsigned)cuts[i];

        ends_within(b, cuts[i], opens - 1);
        ends_within(b, cuts[i], opens);
        ends_within(b, cuts[i], opens + 1);
    }
}

/* Reading goes on after each refusal but that of a cut record. */
static void test_reading_goes_on(struct bench *b)
{
    uint8_t input[LONGEST_TEXT];
    size_t head = parse_records(ONE_BOARD, input);
    size_t size = head;

    b->topic = "replay: where reading goes on";
    size += parse_records(SEND SEND SEND, input + size);
    input[head + 98] = 1;                     /* padding of the block */
    input[head + 2 * PAIR - 1] = 1;           /* padding of the M */
    input[head + 2 * PAIR + CONTROL + 2] = 65; /* data over 64 */
    size += parse_records(SAP_FRAME SAP_FRAME, input + size);
    input[size - 87 - 87 + 5] = 6;
    input[size - 1] = 1;
    size += parse_records("M 0 6869; M 0; X 0", input + size);
    prints(b, second_replay, input, size,
        ONE_BOARD_LINES
        "5 refused 10\n6 refused 10\n7 refused 5\n8 refused 10\n9 refused 10\n"
        "10 refused 10\n11 refused 10\n12 ok\n12 records, 7 refused\n",
        "refused");

    size = head + parse_records(SEND SEND, input + head);
    input[head + 2] = 97; /* L */
    prints(b, second_replay, input, size,
        ONE_BOARD_LINES
        "5 refused 5\n6 refused 10\n7 u 0 070200000000028400\n"
        "7 M 0 026869" ZEROS_62 "\n7 records, 2 refused\n",
        "L 97: the M stands by itself");
}

/* Datagrams and frames are no calls, and part of no fate. */
static void test_fates(struct bench *b)
{
    static uint8_t input[LONGEST_TEXT];
    static char replayed[LONGEST_TEXT];
    char *unused = replayed;
    char wanted[LONGEST_TEXT];
    char *end = wanted + sprintf(wanted, "dlpi fates\n");
    size_t size;

    b->topic = "fates: datagrams and frames";
    prints_text(b, second_fates,
        ADD_PPA_1 "O; O; O;" BIND("0", "80", "2") BOARD("2", "0080")
        RING("80") SAP_FRAME TO_SAP("84") DATA_OF_2 RING("80")
        TO_SAP("85") DATA_OF_2 "M 0 0000000e00000009;"
        "P 0 00000007 00000007 00000014 00000000 00000000 02000000000284;"
        DENY("0", "1") SEND ACCEPT_ON("0", "2", "0"),
        "dlpi fates\n"
        "call 0 1 1 1 denied\n"
        "call 0 1 2 2 accepted\n"
        "opening 0 1 2 1 1 0 0 0\n"
        "opening 1 1 0 0 0 0 0 0\n"
        "opening 2 1 0 0 0 0 0 0\n"
        "total 3 2 1 1 0 0 0\n");

    size = all_boards(input, &unused);
    size += parse_records(SAP_FRAME, input + size);
    for (unsigned s = 0; s < 16; s++)
        end += sprintf(end, "opening %u 1 0 0 0 0 0 0\n", s);
    sprintf(end, "total 16 0 0 0 0 0 0\n");
    prints(b, second_fates, input, size, wanted, "a frame to all streams");
}

void run_boards(struct bench *b)
{
    test_example(b);
    test_replay_forms(b);
    test_replay_of_all_streams(b);
    test_shifts(b);
    test_ends(b);
    test_reading_goes_on(b);
    test_fates(b);
}
