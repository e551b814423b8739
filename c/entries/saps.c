/* What the library tells of a number of a SAP field, beside what it answers to a bind of that number. */
#include <inttypes.h>
#include <stdio.h>

#include "groups.h"
#include "stage.h"

enum {
    BIND_ACK = 0x04,
    ERROR_ACK = 0x05,
    NUMBERS_OF_TWO_BYTES = 65536
};

struct telling {
    uint32_t number;
    uint32_t length;
    uint32_t exclusion;
    uint32_t place;
};

static const struct telling tellings[] = {
    { 0x00, 1, 0, 0 },
    { 0x01, 0, KUNGTHEVI_EXCLUDED_ODD, KUNGTHEVI_PLACE_BINDING },
    { 0x04, 1, 0, 0 },
    { 0x05, 0, KUNGTHEVI_EXCLUDED_ODD, KUNGTHEVI_PLACE_BINDING },
    { 0x06, 0, KUNGTHEVI_EXCLUDED_RESERVED, KUNGTHEVI_PLACE_RESERVED },
    { 0x07, 0, KUNGTHEVI_EXCLUDED_ODD, KUNGTHEVI_PLACE_BINDING },
    { 0x08, 1, 0, 0 },
    { 0x80, 1, 0, 0 },
    { 0xaa, 1, 0, 0 },
    { 0xfe, 1, 0, 0 },
    { 0xff, 0, KUNGTHEVI_EXCLUDED_ODD, KUNGTHEVI_PLACE_BINDING },
    { 0x100, 0, KUNGTHEVI_EXCLUDED_BETWEEN, KUNGTHEVI_PLACE_BINDING },
    { 0x5ff, 0, KUNGTHEVI_EXCLUDED_BETWEEN, KUNGTHEVI_PLACE_BINDING },
    { 0x600, 2, 0, 0 },
    { 0x601, 2, 0, 0 },
    { 0x800, 2, 0, 0 },
    { 0xffff, 2, 0, 0 },
    { 0x10000, 0, KUNGTHEVI_EXCLUDED_ABOVE, KUNGTHEVI_PLACE_BINDING },
    { 0x10006, 0, KUNGTHEVI_EXCLUDED_ABOVE, KUNGTHEVI_PLACE_BINDING },
    { 0x80000080, 0, KUNGTHEVI_EXCLUDED_ABOVE, KUNGTHEVI_PLACE_BINDING },
    { 0xffffffff, 0, KUNGTHEVI_EXCLUDED_ABOVE, KUNGTHEVI_PLACE_BINDING },
};

static void check_telling(struct checks *checks, const struct telling *telling)
{
    uint32_t answer = kungthevi_sap(telling->number);
    check(checks, KUNGTHEVI_SAP_LENGTH(answer) == telling->length, "0x%" PRIx32 ": its length", telling->number);
    check(checks, KUNGTHEVI_SAP_EXCLUSION(answer) == telling->exclusion, "0x%" PRIx32 ": its exclusion",
          telling->number);
    check(checks, KUNGTHEVI_SAP_PLACE(answer) == telling->place, "0x%" PRIx32 ": its place", telling->number);
    check(checks, answer >> 24 == 0, "0x%" PRIx32 ": zero above", telling->number);
}

/* A bind in mode 2, on a stream that is attached: DL_BIND_ACK with an address of that length, or DL_BADADDR. */
static bool bind_agrees(const struct stage *attached, uint32_t number)
{
    uint32_t length = KUNGTHEVI_SAP_LENGTH(kungthevi_sap(number));
    struct stage stage = *attached;
    char bind[64];
    snprintf(bind, sizeof bind, "P 00 14 00000001 %08" PRIx32 " 00000000 0002 0000 00000000;", number);
    if (stage_call(&stage, bind) != LONGEST_RECORD)
        return false;
    if (length == 0)
        return stage_field(&stage, 0) == ERROR_ACK && stage_field(&stage, 8) == KUNGTHEVI_DL_BADADDR;
    return stage_field(&stage, 0) == BIND_ACK && stage_field(&stage, 8) == 6 + length;
}

/* Every number of two bytes; above them a sample, whose two high bytes are their two low ones. */
static void check_binds(struct checks *checks)
{
    struct stage attached;
    uint32_t number = 0, half = 1;
    stage_set(&attached, TWO_STREAMS ATTACH("00", "00000001"));
    while (number < NUMBERS_OF_TWO_BYTES && bind_agrees(&attached, number))
        number++;
    check(checks, number == NUMBERS_OF_TWO_BYTES, "a bind to 0x%" PRIx32, number);
    while (half < NUMBERS_OF_TWO_BYTES && bind_agrees(&attached, half << 16 | half))
        half += 17;
    check(checks, half >= NUMBERS_OF_TWO_BYTES, "a bind to 0x%" PRIx32, half << 16 | half);
}

void run_saps(struct checks *checks)
{
    for (size_t i = 0; i < sizeof tellings / sizeof tellings[0]; i++)
        check_telling(checks, &tellings[i]);
    check_binds(checks);
}
