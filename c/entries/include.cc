/* The header in C++: opens a stream of a fresh table, and asks of a SAP. */
#include "../kungthevi.h"

int main()
{
    uint8_t table[KUNGTHEVI_TABLE_SIZE];
    uint8_t room[KUNGTHEVI_ROOM_SIZE] = {};
    const uint8_t record[] = { 'O' };
    if (kungthevi_fresh(table, sizeof table) != 0 || kungthevi_record_size(record, sizeof record) != sizeof record)
        return 1;
    uint32_t answer = kungthevi_call(table, sizeof table, record, sizeof record, room, sizeof room);
    if (KUNGTHEVI_SAP_EXCLUSION(kungthevi_sap(0x06)) != KUNGTHEVI_EXCLUDED_RESERVED)
        return 1;
    return KUNGTHEVI_REFUSAL(answer) == 0 && KUNGTHEVI_TOKEN(answer) == 1 ? 0 : 1;
}
