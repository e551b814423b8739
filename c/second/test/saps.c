/*
 * saps.c - tests what is told of a number of a SAP field: by the public call,
 * by the command sap and by a bind.
 */
#include "../saps.h"

#include <stdint.h>
#include <stdio.h>
#include <string.h>

#include "bench.h"
#include "groups.h"
#include "printing.h"
#include "../second.h"

/* The answers of the public call, each with its line's words. */
#define SAP 0x000001
#define TYPE 0x000002
#define ODD 0x010100
#define RESERVED 0x020200
#define BETWEEN 0x010300
#define ABOVE 0x010400

#define SAP_TEXT " SAP\n"
#define TYPE_TEXT " type\n"
#define ODD_TEXT " excluded: odd, where SAPs are even (manual, 'Binding')\n"
#define RESERVED_TEXT " excluded: reserved, by RFC 1010" \
    " (manual, 'Reserved IEEESAPS/Ethertypes')\n"
#define BETWEEN_TEXT " excluded: between the SAPs, which end at 0xff," \
    " and the types, which begin at 0x600 (manual, 'Binding')\n"
#define ABOVE_TEXT " excluded: above the types, which end at 0xffff" \
    " (manual, 'Binding')\n"

static void test_answers(struct bench *b)
{
    static const struct {
        uint32_t number;
        uint32_t answer;
    } answers[] = {
        { 0, SAP }, { 1, ODD }, { 2, SAP }, { 3, ODD }, { 4, SAP },
        { 5, ODD }, { 6, RESERVED }, { 7, ODD }, { 8, SAP }, { 0x7f, ODD },
        { 0x80, SAP }, { 0x81, ODD }, { 0xaa, SAP }, { 0xfd, ODD },
        { 0xfe, SAP }, { 0xff, ODD },
        { 0x100, BETWEEN }, { 0x101, BETWEEN }, { 0x106, BETWEEN },
        { 0x180, BETWEEN }, { 0x5fe, BETWEEN }, { 0x5ff, BETWEEN },
        { 0x600, TYPE }, { 0x601, TYPE }, { 0x606, TYPE }, { 0x800, TYPE },
        { 0x806, TYPE }, { 0x8000, TYPE }, { 0xfffe, TYPE }, { 0xffff, TYPE },
        { 0x10000, ABOVE }, { 0x10001, ABOVE }, { 0x10006, ABOVE },
        { 0x10080, ABOVE }, { 0x10100, ABOVE }, { 0x10800, ABOVE },
        { 0x1000080, ABOVE }, { 0x7fffffff, ABOVE }, { 0x80000000, ABOVE },
        { 0x80000080, ABOVE }, { 0xfffffffe, ABOVE }, { 0xffffffff, ABOVE },
    };

    b->topic = "the public call on numbers of a SAP field";
    for (size_t i = 0; i < COUNT(answers); i++) {
        char what[16];

        snprintf(what, sizeof what, "0x%lx", (unsigned long)answers[i].number);
        check(b, second_sap(answers[i].number) == answers[i].answer, what);
    }
}

static unsigned times_answered(uint32_t answer)
{
    unsigned times = 0;

    for (uint32_t number = 0; number <= 0xffff; number++)
        if (second_sap(number) == answer)
            times++;
    return times;
}

static bool all_above(void)
{
    static const uint32_t low[] = { 0, 1, 6, 0x80, 0xff, 0x100, 0x5ff, 0x600,
                                    0xffff };

    for (uint32_t high = 1; high <= 0xffff; high++)
        for (size_t i = 0; i < COUNT(low); i++)
            if (second_sap(high << 16 | low[i]) != ABOVE)
                return false;
    return true;
}

/* Together they are the 65536 numbers of two bytes. */
static void test_how_many(struct bench *b)
{
    b->topic = "how many numbers have each answer";
    check(b, times_answered(SAP) == 127, "128 even ones but 0x06");
    check(b, times_answered(ODD) == 128, "128 odd ones");
    check(b, times_answered(RESERVED) == 1, "0x06");
    check(b, times_answered(BETWEEN) == 1280, "0x500 between");
    check(b, times_answered(TYPE) == 64000, "0xfa00 types");
    check(b, times_answered(ABOVE) == 0, "none above");
    check(b, all_above(), "whatever the lower two bytes");
}

/* ---- what a bind says ---- */

/* Stream 2 asks for a bind. True if the room then holds one message. */
static bool asks_bind(struct bench *b, uint32_t number, uint8_t mode)
{
    uint8_t record[99];

    message(record, 2, 20, "00000001 00000000 00000000 0000 0000 00000000");
    put_number(record + 3 + 4, number);
    record[3 + 13] = mode;
    start(b);
    stand(b, 2, UNBOUND_SLOT);
    memset(room_of(b), ROOM_BYTE, NEEDED_ROOM);
    return second_call(table_of(b), SECOND_TABLE_SIZE, record, sizeof record,
                       room_of(b), NEEDED_ROOM) == 99;
}

static bool bind_fails(struct bench *b, uint32_t number, uint8_t mode,
                       uint8_t error)
{
    uint8_t wanted[99];

    parse_records("C 2 00000005 00000001 00000000 00000000", wanted);
    wanted[3 + 11] = error;
    return asks_bind(b, number, mode) && memcmp(room_of(b), wanted, 99) == 0;
}

/* BIND_ACK with the number, and an address that takes it in so many bytes. */
static bool bind_succeeds(struct bench *b, uint32_t number, uint8_t mode,
                          uint32_t bytes)
{
    uint8_t wanted[99];

    parse_records("C 2 00000004 00000000 00000000 00000018 00000000 00000000"
                  " 020000000001", wanted);
    wanted[2] = (uint8_t)(30 + bytes); /* L */
    put_number(wanted + 3 + 4, number);
    put_number(wanted + 3 + 8, 6 + bytes);
    if (bytes == 2)
        wanted[3 + 30] = (uint8_t)(number >> 8);
    wanted[3 + 30 + bytes - 1] = (uint8_t)number;
    return asks_bind(b, number, mode) && memcmp(room_of(b), wanted, 99) == 0;
}

/* BADADDR exactly if the number is excluded. */
static bool bind_agrees(struct bench *b, uint32_t number)
{
    uint32_t bytes = second_sap(number) & 0xff;

    return bytes == 0 ? bind_fails(b, number, 2, BADADDR)
                      : bind_succeeds(b, number, 2, bytes);
}

/* A type is not excluded, though mode 1 does not serve it. */
static bool bind_in_mode_1_agrees(struct bench *b, uint32_t number)
{
    switch (second_sap(number) & 0xff) {
    case 0:
        return bind_fails(b, number, 1, BADADDR);
    case 1:
        return bind_succeeds(b, number, 1, 1);
    default:
        return bind_fails(b, number, 1, UNSUPPORTED);
    }
}

static void test_binds(struct bench *b)
{
    static const uint32_t above[] = {
        0x10000, 0x10001, 0x10080, 0x10800, 0x1000000, 0x7fffffff, 0x80000000,
        0x80000080, 0xffff0600, 0xffffffff,
    };
    bool agrees = true;
    bool agrees_in_mode_1 = true;

    b->topic = "a bind and the public call on its SAP";
    for (uint32_t number = 0; number <= 0xffff; number++) {
        agrees = agrees && bind_agrees(b, number);
        agrees_in_mode_1 = agrees_in_mode_1 && bind_in_mode_1_agrees(b, number);
    }
    check(b, agrees, "0 to 0xffff in mode 2");
    check(b, agrees_in_mode_1, "0 to 0xffff in mode 1");
    for (size_t i = 0; i < COUNT(above); i++) {
        check(b, bind_agrees(b, above[i]), "above 0xffff in mode 2");
        check(b, bind_in_mode_1_agrees(b, above[i]), "above 0xffff in mode 1");
    }
}

/* ---- what the command prints ---- */

static void tells(struct bench *b, char *const words[], enum ending ending,
                  const char *wanted_out, const char *wanted_err,
                  const char *what)
{
    FILE *out = new_file();
    FILE *err = new_file();

    check(b, second_saps(words, out, err) == ending, what);
    check_printed(b, out, wanted_out, what);
    check_printed(b, err, wanted_err, what);
}

static void is_number(struct bench *b, char *word, enum ending ending,
                      const char *line)
{
    char *const words[] = { word, NULL };

    tells(b, words, ending, line, "", word);
}

static void is_no_number(struct bench *b, char *word)
{
    char *const words[] = { word, NULL };
    char wanted[LONGEST_TEXT];

    snprintf(wanted, sizeof wanted,
             "dlpi sap: '%s' is no number of four bytes\n", word);
    tells(b, words, NO_NUMBER, "", wanted, word);
}

static void test_lines(struct bench *b)
{
    b->topic = "sap: lines";
    is_number(b, "0", DONE, "0x00" SAP_TEXT);
    is_number(b, "1", SOME_EXCLUDED, "0x01" ODD_TEXT);
    is_number(b, "5", SOME_EXCLUDED, "0x05" ODD_TEXT);
    is_number(b, "6", SOME_EXCLUDED, "0x06" RESERVED_TEXT);
    is_number(b, "7", SOME_EXCLUDED, "0x07" ODD_TEXT);
    is_number(b, "128", DONE, "0x80" SAP_TEXT);
    is_number(b, "129", SOME_EXCLUDED, "0x81" ODD_TEXT);
    is_number(b, "254", DONE, "0xfe" SAP_TEXT);
    is_number(b, "255", SOME_EXCLUDED, "0xff" ODD_TEXT);
    is_number(b, "256", SOME_EXCLUDED, "0x0100" BETWEEN_TEXT);
    is_number(b, "1535", SOME_EXCLUDED, "0x05ff" BETWEEN_TEXT);
    is_number(b, "1536", DONE, "0x0600" TYPE_TEXT);
    is_number(b, "1537", DONE, "0x0601" TYPE_TEXT);
    is_number(b, "2048", DONE, "0x0800" TYPE_TEXT);
    is_number(b, "65535", DONE, "0xffff" TYPE_TEXT);
    is_number(b, "65536", SOME_EXCLUDED, "0x00010000" ABOVE_TEXT);
    is_number(b, "2147483647", SOME_EXCLUDED, "0x7fffffff" ABOVE_TEXT);
    is_number(b, "2147483648", SOME_EXCLUDED, "0x80000000" ABOVE_TEXT);
    is_number(b, "4294967295", SOME_EXCLUDED, "0xffffffff" ABOVE_TEXT);
}

#define ZEROS "0000000000000000000000000000000000000000"

static void test_ways_to_write(struct bench *b)
{
    b->topic = "sap: ways to write a number";
    is_number(b, "00", DONE, "0x00" SAP_TEXT);
    is_number(b, "0x0", DONE, "0x00" SAP_TEXT);
    is_number(b, "08", DONE, "0x08" SAP_TEXT);
    is_number(b, "010", DONE, "0x0a" SAP_TEXT);
    is_number(b, "10", DONE, "0x0a" SAP_TEXT);
    is_number(b, "0x10", DONE, "0x10" SAP_TEXT);
    is_number(b, "0x06", SOME_EXCLUDED, "0x06" RESERVED_TEXT);
    is_number(b, "0xfe", DONE, "0xfe" SAP_TEXT);
    is_number(b, "0xFE", DONE, "0xfe" SAP_TEXT);
    is_number(b, "0xFf", SOME_EXCLUDED, "0xff" ODD_TEXT);
    is_number(b, "0xaBcD", DONE, "0xabcd" TYPE_TEXT);
    is_number(b, "0xAbC", DONE, "0x0abc" TYPE_TEXT);
    is_number(b, "0xabcdefAB", SOME_EXCLUDED, "0xabcdefab" ABOVE_TEXT);
    is_number(b, "0xCDEF0123", SOME_EXCLUDED, "0xcdef0123" ABOVE_TEXT);
    is_number(b, "0x456789", SOME_EXCLUDED, "0x00456789" ABOVE_TEXT);
    is_number(b, "305419896", SOME_EXCLUDED, "0x12345678" ABOVE_TEXT);
    is_number(b, "0xffffffff", SOME_EXCLUDED, "0xffffffff" ABOVE_TEXT);
    is_number(b, ZEROS, DONE, "0x00" SAP_TEXT);
    is_number(b, "0x" ZEROS, DONE, "0x00" SAP_TEXT);
    is_number(b, ZEROS "128", DONE, "0x80" SAP_TEXT);
    is_number(b, "0x" ZEROS "80", DONE, "0x80" SAP_TEXT);
    is_number(b, ZEROS "4294967295", SOME_EXCLUDED, "0xffffffff" ABOVE_TEXT);
    is_number(b, "0x" ZEROS "ffffffff", SOME_EXCLUDED,
              "0xffffffff" ABOVE_TEXT);
}

static void test_no_numbers(struct bench *b)
{
    static char *const words[] = {
        "", "0x", "x", "0X1f", "0X", "00x1f", "x1f", "1f", "ff", "0xg", "0x/",
        "0x:", "0x@", "0xG", "0x`", "0x1fg", "0x0x1", "1/", ":1", "1a", "-1",
        "+1", "-0", "+0", "0x-1", "0x+1", " 1", "1 ", "1\n", "\t1", "0x 1",
        "0x1 ", "1 2", "1,000", "1.0", "1e3", "1u", "1_0", "'1'", "\xb2", "h",
        "4294967296", "4294967297", "4294967424", "0x100000000",
        "0x100000080", "18446744073709551615", "18446744073709551616",
        "18446744073709551744", "0xffffffffffffffff", "0x10000000000000000",
        "0x10000000000000080", "42949672960", ZEROS "4294967296",
        "0x" ZEROS "100000000",
        "99999999999999999999999999999999999999999999999999999999999999999999",
        "0xffffffffffffffffffffffffffffffffffffffffffffffffffffffffffffffff",
        "340282366920938463463374607431768211584",
    };

    b->topic = "sap: what is no number";
    for (size_t i = 0; i < COUNT(words); i++)
        is_no_number(b, words[i]);
}

/* Whatever stands beside a number, its line is printed, in the order given. */
static void test_several_words(struct bench *b)
{
    static char *const nothing[] = { NULL };
    static char *const bound[] = { "0x800", "0x80", "0", "0x80", NULL };
    static char *const excluded[] = { "0x80", "6", "0x800", NULL };
    static char *const no_number[] = { "0x80", "", "0x800", "x", NULL };
    static char *const all[] = { "0x10080", "-1", "0x5fe", "0x800", "1 ", "6",
                                 "0xfe", "0x81", NULL };
    static char *const number_last[] = { "q", "1", NULL };

    b->topic = "sap: several words";
    tells(b, nothing, NO_NUMBER, "", "dlpi sap: no number is given\n", "none");
    tells(b, bound, DONE,
          "0x0800" TYPE_TEXT "0x80" SAP_TEXT "0x00" SAP_TEXT "0x80" SAP_TEXT,
          "", "none is excluded");
    tells(b, excluded, SOME_EXCLUDED,
          "0x80" SAP_TEXT "0x06" RESERVED_TEXT "0x0800" TYPE_TEXT, "",
          "one is excluded");
    tells(b, no_number, NO_NUMBER, "0x80" SAP_TEXT "0x0800" TYPE_TEXT,
          "dlpi sap: '' is no number of four bytes\n"
          "dlpi sap: 'x' is no number of four bytes\n",
          "two are no numbers");
    tells(b, all, NO_NUMBER,
          "0x00010080" ABOVE_TEXT "0x05fe" BETWEEN_TEXT "0x0800" TYPE_TEXT
          "0x06" RESERVED_TEXT "0xfe" SAP_TEXT "0x81" ODD_TEXT,
          "dlpi sap: '-1' is no number of four bytes\n"
          "dlpi sap: '1 ' is no number of four bytes\n",
          "of each");
    tells(b, number_last, NO_NUMBER, "0x01" ODD_TEXT,
          "dlpi sap: 'q' is no number of four bytes\n",
          "an excluded one behind what is no number");
}

void run_saps(struct bench *b)
{
    test_answers(b);
    test_how_many(b);
    test_binds(b);
    test_lines(b);
    test_ways_to_write(b);
    test_no_numbers(b);
    test_several_words(b);
}
