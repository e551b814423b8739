/* What a datagram writes, byte by byte: the order to the line, or DL_UDERROR_IND. */
#include "../layout.h"
#include "exchange.h"
#include "groups.h"
#include "stage.h"

#define SIXTEEN_BYTES "00112233445566778899aabbccddeeff"
#define ALL_DATA "40 " SIXTEEN_BYTES SIXTEEN_BYTES SIXTEEN_BYTES SIXTEEN_BYTES

/* From stream 0 with the data 6869: L, then length, offset and, behind the priority, the address. */
#define DATAGRAM_OF(l, length, offset, address) \
    "P 00 " l " 00000007 " length " " offset " 00000000 00000000 " address " + M 00 02 6869"
#define TO_SAP(address) DATAGRAM_OF("1b", "00000007", "00000014", address)
#define TO_TYPE(address) DATAGRAM_OF("1c", "00000008", "00000014", address)
#define AT_OFFSET(offset) DATAGRAM_OF("1b", "00000007", offset, "02000000000284")

/* What goes to the line for one to 02000000000284. */
#define ORDER "u 00 07 0200000000028400 + M 00 02 6869"

/* To stream 0: no address, then 0, and the error in bytes 16 to 19. */
#define UDERROR(error) "P 00 14 00000009 00000000 00000000 00000000 " error
#define BADADDR UDERROR("00000001")
#define OUTSTATE UDERROR("00000003")

static const struct exchange sent[] = {
    { "a datagram", BOARD, DATAGRAM, ORDER },
    { "a datagram of kind C", BOARD,
      "C 00 1b 00000007 00000007 00000014 00000000 00000000 02000000000284 + M 00 02 6869", ORDER },
    { "a datagram with a priority", BOARD,
      "P 00 1b 00000007 00000007 00000014 ffffffff ffffffff 02000000000284 + M 00 02 6869", ORDER },
    { "a datagram with bytes around its address", BOARD,
      DATAGRAM_OF("1d", "00000007", "00000015", "ff 02000000000284 ff"), ORDER },
    { "a datagram without data", BOARD, DATAGRAM_ALONE "+ M 00 00", "u 00 07 0200000000028400 + M 00 00" },
    { "a datagram of 64 bytes", BOARD, DATAGRAM_ALONE "+ M 00 " ALL_DATA,
      "u 00 07 0200000000028400 + M 00 " ALL_DATA },
    { "a datagram to a group", BOARD, TO_SAP("ffffffffffff84"), "u 00 07 ffffffffffff8400 + M 00 02 6869" },
    { "a datagram to a type", TYPE_BOARD, TO_TYPE("0200000000020806"), "u 00 08 0200000000020806 + M 00 02 6869" },
    { "a datagram to the first type", TYPE_BOARD, TO_TYPE("0200000000020600"),
      "u 00 08 0200000000020600 + M 00 02 6869" },
};

static const struct exchange wrong[] = {
    { "a datagram to an odd SAP", BOARD, TO_SAP("02000000000285"), BADADDR },
    { "a datagram to the reserved SAP", BOARD, TO_SAP("02000000000206"), BADADDR },
    { "a datagram from a SAP to a type", BOARD, TO_TYPE("0200000000020800"), BADADDR },
    { "a datagram from a type to a SAP", TYPE_BOARD, TO_SAP("02000000000284"), BADADDR },
    { "a datagram to a SAP in two bytes", TYPE_BOARD, TO_TYPE("0200000000020080"), BADADDR },
    { "a datagram to the number before the types", TYPE_BOARD, TO_TYPE("02000000000205ff"), BADADDR },
    { "a datagram with an early address", BOARD, AT_OFFSET("00000013"), BADADDR },
    { "a datagram with a late address", BOARD, AT_OFFSET("00000015"), BADADDR },
    { "a datagram with the highest offset", BOARD, AT_OFFSET("ffffffff"), BADADDR },
    { "a datagram whose end wraps to 0", BOARD, AT_OFFSET("fffffff9"), BADADDR },
    { "a datagram of its fixed size", BOARD, DATAGRAM_OF("14", "00000000", "00000000", ""), BADADDR },
    { "a datagram of a stream without a PPA", TWO_STREAMS, DATAGRAM, OUTSTATE },
    { "a datagram of an unbound stream", TWO_STREAMS ATTACH("00", "00000001"), DATAGRAM, OUTSTATE },
    { "a datagram in mode 1", LISTENER, DATAGRAM, OUTSTATE },
    { "a datagram in mode 1 to an odd SAP", LISTENER, TO_SAP("02000000000285"), OUTSTATE },
};

/* As the header says: not where DL_ERROR_ACK has it. */
static void check_place_of_error(struct checks *checks, const char *setup, uint32_t error)
{
    struct stage stage;
    stage_set(&stage, setup);
    (void)stage_call(&stage, TO_SAP("02000000000285"));
    check(checks, stage_field(&stage, 0) == 0x09, "error 0x%02x is told by DL_UDERROR_IND", (unsigned)error);
    check(checks, stage_field(&stage, 16) == error, "error 0x%02x in bytes 16 to 19", (unsigned)error);
    check(checks, stage_field(&stage, 8) == 0, "error 0x%02x not in bytes 8 to 11", (unsigned)error);
}

void run_datagrams(struct checks *checks)
{
    for (size_t i = 0; i < sizeof sent / sizeof sent[0]; i++)
        exchange_check(checks, &sent[i], KUNGTHEVI_ROOM_SIZE);
    for (size_t i = 0; i < sizeof wrong / sizeof wrong[0]; i++)
        exchange_check(checks, &wrong[i], KUNGTHEVI_ROOM_SIZE);
    check_place_of_error(checks, BOARD, KUNGTHEVI_DL_BADADDR);
    check_place_of_error(checks, TWO_STREAMS, KUNGTHEVI_DL_OUTSTATE);
}
