/* Making calls on a stage. */
#include "stage.h"

#include <string.h>

#include "text.h"

bool all_are(const uint8_t *bytes, size_t size, uint8_t byte)
{
    for (size_t i = 0; i < size; i++)
        if (bytes[i] != byte)
            return false;
    return true;
}

void stage_prepare(struct stage *stage)
{
    memcpy(stage->before, stage->table, sizeof stage->before);
    memset(stage->room, ROOM_BYTE, sizeof stage->room);
}

/* The next call for the text. */
static uint32_t call_next(struct stage *stage, const char **text, size_t room_len)
{
    uint8_t record[LONGEST_CALL];
    size_t size = text_record(text, record);
    return kungthevi_call(stage->table, sizeof stage->table, record, size, stage->room, room_len);
}

void stage_set(struct stage *stage, const char *records)
{
    (void)kungthevi_fresh(stage->table, sizeof stage->table);
    stage_go_on(stage, records);
}

void stage_go_on(struct stage *stage, const char *records)
{
    while (*records != '\0')
        (void)call_next(stage, &records, KUNGTHEVI_ROOM_SIZE);
}

uint32_t stage_call(struct stage *stage, const char *record)
{
    return stage_call_in_room(stage, record, KUNGTHEVI_ROOM_SIZE);
}

uint32_t stage_call_in_room(struct stage *stage, const char *record, size_t room_len)
{
    stage_prepare(stage);
    return call_next(stage, &record, room_len);
}

bool stage_table_is_kept(const struct stage *stage)
{
    return memcmp(stage->table, stage->before, sizeof stage->table) == 0;
}

bool stage_is_kept(const struct stage *stage)
{
    return stage_table_is_kept(stage) && all_are(stage->room, sizeof stage->room, ROOM_BYTE);
}

uint32_t stage_field(const struct stage *stage, size_t place)
{
    const uint8_t *bytes = stage->room + AT_BLOCK + place;
    return (uint32_t)bytes[0] << 24 | (uint32_t)bytes[1] << 16 | (uint32_t)bytes[2] << 8 | bytes[3];
}
