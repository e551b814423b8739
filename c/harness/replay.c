/* kungthevi replay: prints what a correct provider answers to the calls of captures. */
#include "replay.h"

#include "captures.h"

static void print_words(struct text *text, uint64_t call, const char *words)
{
    text_decimal(text, call);
    text_words(text, words);
}

static void print_number(struct text *text, uint64_t call, const char *words, uint32_t number)
{
    print_words(text, call, words);
    text_decimal(text, number);
    text_character(text, '\n');
}

static void print_record(struct text *text, uint64_t call, const struct record_out *record)
{
    text_decimal(text, call);
    text_character(text, ' ');
    text_character(text, (char)record->kind);
    text_character(text, ' ');
    text_decimal(text, record->stream);
    if (record->fields_size > 0)
        text_character(text, ' ');
    text_hex(text, record->fields, record->fields_size);
    text_character(text, '\n');
}

static void print_records(struct text *text, const struct calls *calls)
{
    struct record_out record;
    size_t place = 0;
    while (calls_record(calls, &place, &record))
        print_record(text, calls->capture->number, &record);
}

static void print_answer(struct text *text, const struct calls *calls)
{
    uint64_t call = calls->capture->number;
    if (KUNGTHEVI_REFUSAL(calls->answer) != 0)
        print_number(text, call, " refused ", KUNGTHEVI_REFUSAL(calls->answer));
    else if (KUNGTHEVI_TOKEN(calls->answer) != 0)
        print_number(text, call, " open ", KUNGTHEVI_STREAM(calls->answer));
    else if (KUNGTHEVI_WRITTEN(calls->answer) == 0)
        print_words(text, call, " ok\n");
    else
        print_records(text, calls);
}

static void print_counts(struct text *text, const struct calls *calls)
{
    text_decimal(text, calls->capture->number);
    text_words(text, " records, ");
    text_decimal(text, calls->refused);
    text_words(text, " refused\n");
}

static enum status replay_calls(struct text *text, struct calls *calls)
{
    text_words(text, "dlpi replay\n");
    while (text->error == 0 && calls_next(calls))
        print_answer(text, calls);
    if (calls_whole(calls))
        print_counts(text, calls);
    return calls_status(calls);
}

enum status replay(struct text *text, char *const *files, size_t count)
{
    return captures_print(text, files, count, replay_calls);
}
