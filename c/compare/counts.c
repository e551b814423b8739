/* Adding up, and printing the sums. */
#include "counts.h"

#include <inttypes.h>
#include <stdio.h>

#include "../generate/array.h"
#include "../generate/record.h"

enum { UDERROR_IND = 0x09 };

/* The paper's refusal numbers, and 0 for a call that is served. */
static const struct {
    unsigned number;
    const char *name;
} refusals[] = {
    { 0, "served" },
    { KUNGTHEVI_LITTLE_ROOM, "little room" },
    { KUNGTHEVI_NOT_OPEN, "stream not open" },
    { KUNGTHEVI_ALL_OPEN, "all 16 are open" },
    { KUNGTHEVI_NO_CODE, "L under 4" },
    { KUNGTHEVI_OVER_LONG, "L or data too long" },
    { KUNGTHEVI_UNEXPECTED, "no row for the event" },
    { KUNGTHEVI_NOBODY_THERE, "nobody there" },
    { KUNGTHEVI_BUSY, "listener is busy" },
    { KUNGTHEVI_NO_NEW_PPA, "no new PPA" },
    { KUNGTHEVI_NOT_A_RECORD, "not a record" },
    { KUNGTHEVI_NOT_SOUND, "table not sound" },
};

/* By what the call wrote: a u before its M, or DL_UDERROR_IND. */
static void add_datagram(struct counts *counts, const uint8_t *written)
{
    counts->datagrams += written[AT_KIND] == 'u';
    counts->wrong_datagrams += record_is_message(written) && get32(written + AT_BLOCK) == UDERROR_IND;
}

/* A served frame writes a message and its M to each stream. */
static void add_frame(struct counts *counts, uint32_t answer)
{
    if (KUNGTHEVI_REFUSAL(answer) == 0 && KUNGTHEVI_WRITTEN(answer) <= STREAMS * LONGEST_CALL)
        counts->frames[KUNGTHEVI_WRITTEN(answer) / LONGEST_CALL]++;
}

void counts_add_call(struct counts *counts, const struct lending *lending, const struct outcome *outcome)
{
    bool is_frame = lending_is_frame(lending);
    counts->calls++;
    counts->refusals[KUNGTHEVI_REFUSAL(outcome->answer)]++;
    counts->rooms[is_frame ? FRAMES : OTHERS][lending->room_size]++;
    if (KUNGTHEVI_WRITTEN(outcome->answer) > 0)
        add_datagram(counts, outcome->room);
    if (is_frame)
        add_frame(counts, outcome->answer);
}

void counts_add_damaged(struct counts *counts, uint32_t answer)
{
    if (KUNGTHEVI_REFUSAL(answer) == KUNGTHEVI_NOT_SOUND)
        counts->damaged_refused++;
    else
        counts->damaged_taken++;
}

static unsigned room_sizes(const struct counts *counts)
{
    unsigned sizes = 0;
    for (unsigned size = 0; size < ROOM_SIZES; size++)
        sizes += counts->rooms[OTHERS][size] + counts->rooms[FRAMES][size] > 0;
    return sizes;
}

/* Frames that came to two streams or more. */
static uint64_t frames_to_several(const struct counts *counts)
{
    uint64_t sum = 0;
    for (unsigned streams = 2; streams <= STREAMS; streams++)
        sum += counts->frames[streams];
    return sum;
}

void counts_print(const struct counts *counts)
{
    printf("refusal                       calls\n");
    for (size_t i = 0; i < LENGTH_OF(refusals); i++)
        printf("%4u    %-20s %8" PRIu64 "\n", refusals[i].number, refusals[i].name,
               counts->refusals[refusals[i].number]);
    printf("datagrams sent: %" PRIu64 ", wrong: %" PRIu64 ", cut at each byte: %" PRIu64 "\n", counts->datagrams,
           counts->wrong_datagrams, counts->datagrams_cut);
    printf("frames to no stream: %" PRIu64 ", to one: %" PRIu64 ", to several: %" PRIu64 "\n", counts->frames[0],
           counts->frames[1], frames_to_several(counts));
    printf("numbers of a SAP field: %" PRIu64 "\n", counts->numbers);
    printf("forms of captures: %" PRIu64 "\n", counts->forms);
    printf("counters moved on the way: %" PRIu64 "\n", counts->counters_moved);
    printf("damaged images: %" PRIu64 " refused, %" PRIu64 " not\n", counts->damaged_refused, counts->damaged_taken);
    printf("compare: %" PRIu64 " captures, %" PRIu64 " calls, %" PRIu64 " refused for the table, rooms of %u sizes, %"
           PRIu64 " differences\n",
           counts->captures, counts->calls, counts->refusals[KUNGTHEVI_NOT_SOUND], room_sizes(counts),
           counts->differences);
}

/* For a frame also what any other call needs is near. */
static bool is_near_need(unsigned need, unsigned size)
{
    if (need == OTHERS)
        return size <= KUNGTHEVI_ROOM_SIZE + MOST_SPARE_ROOM;
    return size == KUNGTHEVI_ROOM_SIZE - 1 || size == KUNGTHEVI_ROOM_SIZE || size >= KUNGTHEVI_FRAME_ROOM_SIZE - 1;
}

static bool rooms_are_full(const struct counts *counts, unsigned need, const char *name)
{
    bool full = true;
    for (unsigned size = 0; size < ROOM_SIZES; size++)
        if (is_near_need(need, size) && counts->rooms[need][size] == 0) {
            fprintf(stderr, "compare: no %s had a room of %u\n", name, size);
            full = false;
        }
    return full;
}

static bool traffic_is_full(const struct counts *counts)
{
    const struct {
        uint64_t count;
        const char *what;
    } traffic[] = {
        { counts->datagrams, "a datagram sent" },
        { counts->wrong_datagrams, "a datagram answered with DL_UDERROR_IND" },
        { counts->datagrams_cut, "a datagram cut at each byte" },
        { counts->frames[0], "a frame to no stream" },
        { frames_to_several(counts), "a frame to several streams" },
    };
    bool full = true;
    for (size_t i = 0; i < LENGTH_OF(traffic); i++)
        if (traffic[i].count == 0) {
            fprintf(stderr, "compare: left out: %s\n", traffic[i].what);
            full = false;
        }
    return full;
}

bool counts_are_full(const struct counts *counts)
{
    bool full = rooms_are_full(counts, OTHERS, "other call");
    full = rooms_are_full(counts, FRAMES, "frame") && full;
    full = traffic_is_full(counts) && full;
    for (size_t i = 0; i < LENGTH_OF(refusals); i++)
        if (counts->refusals[refusals[i].number] == 0) {
            fprintf(stderr, "compare: no call gave %u, %s\n", refusals[i].number, refusals[i].name);
            full = false;
        }
    return full;
}
