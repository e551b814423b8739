/* A message of code 0x07 and the M right behind it: when one call reads both. */
#include <string.h>

#include "groups.h"
#include "stage.h"
#include "text.h"

enum {
    BYTES = 256,
    CODE_SIZE = 4
};

/* A datagram of stream 0 and bytes behind it. */
static void put_pair(uint8_t bytes[MOST_LENT])
{
    const char *text = DATAGRAM;
    memset(bytes, 0xff, MOST_LENT);
    (void)text_record(&text, bytes);
}

/* Whether a call for the bytes reads so many of them and is refused as no record, or is served if the two are whole. */
static bool is_read(const uint8_t *bytes, size_t lent, size_t size)
{
    struct stage stage;
    stage_set(&stage, BOARD);
    stage_prepare(&stage);
    uint32_t answer = kungthevi_call(stage.table, sizeof stage.table, bytes, lent, stage.room, KUNGTHEVI_ROOM_SIZE);
    if (kungthevi_record_size(bytes, lent) != size)
        return false;
    if (size == LONGEST_CALL)
        return KUNGTHEVI_REFUSAL(answer) == 0 && KUNGTHEVI_WRITTEN(answer) == SENT_SIZE;
    return answer == (uint32_t)KUNGTHEVI_NOT_A_RECORD << 16 && stage_is_kept(&stage);
}

/* Cut at each byte: without a whole M behind it the message is read alone. */
static void check_cuts(struct checks *checks, uint8_t kind)
{
    uint8_t bytes[MOST_LENT];
    put_pair(bytes);
    bytes[AT_KIND] = kind;
    for (size_t lent = 0; lent <= MOST_LENT; lent++) {
        size_t size = lent < LONGEST_CALL ? LONGEST_RECORD : LONGEST_CALL;
        if (lent < LONGEST_RECORD)
            size = 0;
        check(checks, is_read(bytes, lent, size), "a datagram of kind %c with %zu bytes lent", kind, lent);
    }
}

/* Each byte that tells a pair, with each value. */
static void check_telling_byte(struct checks *checks, size_t at, const char *name)
{
    uint8_t bytes[MOST_LENT];
    put_pair(bytes);
    uint8_t right = bytes[at];
    for (unsigned value = 0; value < BYTES; value++) {
        bytes[at] = (uint8_t)value;
        if (value != right)
            check(checks, is_read(bytes, MOST_LENT, LONGEST_RECORD), "a datagram with 0x%02x as %s", value, name);
    }
}

static void check_size_by_code(struct checks *checks)
{
    uint8_t bytes[MOST_LENT];
    for (unsigned byte = 0; byte < CODE_SIZE; byte++) {
        put_pair(bytes);
        bytes[AT_BLOCK + byte] ^= 0x80;
        check(checks, kungthevi_record_size(bytes, MOST_LENT) == LONGEST_RECORD, "another code in byte %u of it", byte);
    }
}

/* Whatever else is wrong inside: the block may have padding, and the M any length. */
static void check_size_by_lengths(struct checks *checks)
{
    uint8_t bytes[MOST_LENT];
    for (unsigned length = 0; length < BYTES; length++) {
        bool is_pair = length >= CODE_SIZE && length <= BLOCK_SIZE;
        put_pair(bytes);
        bytes[AT_LENGTH] = (uint8_t)length;
        bytes[LONGEST_RECORD + AT_LENGTH] = (uint8_t)length;
        check(checks, kungthevi_record_size(bytes, MOST_LENT) == (is_pair ? LONGEST_CALL : LONGEST_RECORD),
              "the size of a datagram with L %u and as much data", length);
    }
}

void run_pairs(struct checks *checks)
{
    check_cuts(checks, 'P');
    check_cuts(checks, 'C');
    check_telling_byte(checks, LONGEST_RECORD + AT_KIND, "the kind behind it");
    check_telling_byte(checks, LONGEST_RECORD + AT_STREAM, "the stream of its M");
    check_size_by_code(checks);
    check_size_by_lengths(checks);
}
