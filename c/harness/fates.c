/* kungthevi fates: prints what became of each call that rang in. */
#include "fates.h"

#include <inttypes.h>

#include "../layout.h"
#include "captures.h"
#include "message.h"
#include "news.h"
#include "opening.h"

struct tally {
    struct opening newest[STREAMS]; /* of each stream */
    uint64_t printed;               /* openings whose lines are printed */
    struct counts total;            /* of these */
};

static void print_number(struct text *text, uint64_t number)
{
    text_character(text, ' ');
    text_decimal(text, number);
}

static void print_counts(struct text *text, const struct counts *counts)
{
    print_number(text, counts->calls);
    for (size_t fate = 0; fate < FATES; fate++)
        print_number(text, counts->fates[fate]);
    text_character(text, '\n');
}

static void print_call(struct text *text, uint32_t stream, uint64_t ordinal, const struct indication *indication,
                       enum fate fate)
{
    static const char *const words[FATES] = { " accepted\n", " denied\n", " withdrawn\n", " dropped\n", " open\n" };
    text_words(text, "call");
    print_number(text, stream);
    print_number(text, ordinal);
    print_number(text, indication->place);
    print_number(text, indication->number);
    text_words(text, words[fate]);
}

/* Nothing more is written to the stream's newest opening: prints its calls that are still open, and its own line. */
static void print_opening(struct text *text, struct tally *tally, uint32_t stream)
{
    const struct opening *opening = &tally->newest[stream];
    for (size_t i = 0; i < opening->counts.fates[FATE_OPEN]; i++)
        print_call(text, stream, opening->ordinal, &opening->open[i], FATE_OPEN);
    text_words(text, "opening");
    print_number(text, stream);
    print_number(text, opening->ordinal);
    print_counts(text, &opening->counts);
    tally->printed++;
    counts_add(&tally->total, &opening->counts);
}

static void print_last_openings(struct text *text, struct tally *tally)
{
    for (uint32_t stream = 0; stream < STREAMS; stream++)
        if (tally->newest[stream].ordinal > 0)
            print_opening(text, tally, stream);
}

static void print_total(struct text *text, const struct tally *tally)
{
    text_words(text, "total");
    print_number(text, tally->printed);
    print_counts(text, &tally->total);
}

static void take_opening(struct text *text, struct tally *tally, uint32_t stream)
{
    if (tally->newest[stream].ordinal > 0)
        print_opening(text, tally, stream);
    opening_start(&tally->newest[stream]);
}

static bool take_news(struct text *text, struct tally *tally, const struct news *news)
{
    struct opening *opening = &tally->newest[news->stream];
    struct indication ended;
    if (news->fate == FATE_OPEN)
        return opening_ring(opening, news->number);
    if (!opening_end_call(opening, news->number, news->fate, &ended))
        return false;
    print_call(text, news->stream, opening->ordinal, &ended, news->fate);
    return true;
}

/* By the rule paper no ninth indication is open, and none ends that is not: an answer against it ends the counting. */
static bool take_records(struct text *text, struct tally *tally, const struct calls *calls)
{
    struct record_out written;
    struct news news;
    size_t place = 0;
    while (calls_record(calls, &place, &written)) {
        if (!news_read(&news, calls->capture->record, &written) || take_news(text, tally, &news))
            continue;
        message("%s: record %" PRIu64 ": cannot count: the answer breaks the rule paper at stream %d, number %" PRIu32,
                calls->capture->name, calls->capture->number, news.stream, news.number);
        return false;
    }
    return true;
}

static enum status print_fates(struct text *text, struct calls *calls)
{
    struct tally tally = { 0 };
    text_words(text, "dlpi fates\n");
    while (text->error == 0 && calls_next(calls)) {
        if (KUNGTHEVI_TOKEN(calls->answer) != 0)
            take_opening(text, &tally, KUNGTHEVI_STREAM(calls->answer));
        if (!take_records(text, &tally, calls))
            return STATUS_FAILED;
    }
    if (calls_whole(calls)) {
        print_last_openings(text, &tally);
        print_total(text, &tally);
    }
    return calls_status(calls);
}

enum status fates(struct text *text, char *const *files, size_t count)
{
    return captures_print(text, files, count, print_fates);
}
