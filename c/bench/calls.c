/* Calls a second, by each provider. */
#include "calls.h"

#include "../generate/array.h"
#include "../kungthevi.h"
#include "clock.h"
#include "compare.h"
#include "fill.h"
#include "inner.h"
#include "print.h"
#include "provider.h"

enum { ROUNDS = 15 };

struct subject {
    const char *name;
    filler *fill;
    unsigned streams;
};

static const struct subject subjects[] = {
    { "mixed, 2 streams", fill_mixed, 2 },
    { "mixed, 8 streams", fill_mixed, 8 },
    { "mixed, 15 streams", fill_mixed, 15 },
    { "information, 1 stream", fill_information, 1 },
    { "information, 16 streams", fill_information, 16 },
    { "errors, 1 stream", fill_errors, 1 },
    { "connections, 5 streams", fill_connections, 5 },
    { "ringing, 16 streams", fill_ringing, 16 },
    { "datagrams, 1 stream", fill_datagrams, 1 },
    { "datagrams, 16 streams", fill_datagrams, 16 },
    { "frames to 1 stream", fill_frames, 1 },
    { "frames to 16 streams", fill_frames, 16 },
};

static void fill_subject(struct capture *capture, const struct subject *subject)
{
    capture_clear(capture);
    subject->fill(capture, subject->streams);
}

/* --- Comparing */

static bool compare_all(struct capture *capture)
{
    print_captures_heading();
    for (size_t i = 0; i < LENGTH_OF(subjects); i++) {
        struct summary summary;
        fill_subject(capture, &subjects[i]);
        if (!compare_providers(subjects[i].name, capture, &summary))
            return false;
        print_capture(subjects[i].name, capture, &summary);
    }
    return true;
}

/* --- Timing */

static double seconds_of_calls(const struct caller *caller, const struct capture *capture)
{
    uint8_t table[KUNGTHEVI_TABLE_SIZE];
    uint8_t room[KUNGTHEVI_FRAME_ROOM_SIZE];
    (void)caller->fresh(table, sizeof table);
    double start = clock_processor();
    for (size_t call = 0; call < capture->calls; call++)
        (void)caller->call(table, sizeof table, capture_record(capture, call), capture_record_size(capture, call),
                           room, sizeof room);
    return clock_processor() - start;
}

static double seconds_of_run(const struct capture *capture)
{
    uint8_t table[KUNGTHEVI_TABLE_SIZE];
    double start = clock_processor();
    (void)inner_run(table, sizeof table, capture->bytes, capture_size(capture));
    return clock_processor() - start;
}

static double seconds_of(unsigned provider, const struct capture *capture)
{
    return provider == INNER ? seconds_of_run(capture) : seconds_of_calls(&callers[provider], capture);
}

/* The providers take turns, so that a busy machine hits all alike. The first round only warms up. */
static void time_calls(const struct capture *capture, struct times times[PROVIDERS])
{
    for (unsigned round = 0; round <= ROUNDS; round++)
        for (unsigned i = 0; i < PROVIDERS; i++) {
            double seconds = seconds_of(i, capture);
            if (round > 0)
                times_add(&times[i], seconds);
        }
}

static void time_all(struct capture *capture)
{
    print_calls_heading(ROUNDS);
    for (size_t i = 0; i < LENGTH_OF(subjects); i++) {
        struct times times[PROVIDERS] = { { .count = 0 } };
        fill_subject(capture, &subjects[i]);
        time_calls(capture, times);
        print_calls(subjects[i].name, capture->calls, times);
    }
}

enum status calls_measure(bool timed)
{
    static struct capture capture;
    if (!compare_all(&capture))
        return DIFFERENT;
    if (timed)
        time_all(&capture);
    return ALIKE;
}
