/* The calls of a capture: one for each record, a datagram with its M, from a fresh table. */
#include "calls.h"

void calls_start(struct calls *calls, struct capture *capture)
{
    calls->capture = capture;
    calls->answer = 0;
    calls->refused = 0;
    kungthevi_fresh(calls->table, sizeof calls->table);
}

bool calls_next(struct calls *calls)
{
    if (!capture_next(calls->capture))
        return false;
    calls->answer = kungthevi_call(calls->table, sizeof calls->table, calls->capture->record, calls->capture->lent,
                                   calls->room, sizeof calls->room);
    calls->refused += KUNGTHEVI_REFUSAL(calls->answer) != 0;
    return true;
}

bool calls_record(const struct calls *calls, size_t *place, struct record_out *record)
{
    if (*place >= KUNGTHEVI_WRITTEN(calls->answer))
        return false;
    *record = record_out_read(calls->room + *place);
    *place += record->size;
    return true;
}

bool calls_whole(const struct calls *calls)
{
    return calls->capture->error == 0;
}

enum status calls_status(const struct calls *calls)
{
    if (!calls_whole(calls))
        return STATUS_FAILED;
    return calls->refused == 0 ? STATUS_SERVED : STATUS_REFUSED;
}
