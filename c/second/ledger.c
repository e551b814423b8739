/* ledger.c - openings, their calls and fates, and the lines that tell them. */
#include "ledger.h"

#include <stddef.h>

/* NULL if the stream was never opened. */
static struct opening *newest_opening(struct ledger *ledger, unsigned s)
{
    if (s >= STREAMS || ledger->newest[s].which == 0)
        return NULL;
    return &ledger->newest[s];
}

static void print_call(const struct ledger *ledger, unsigned s,
                       const struct indication *indication, const char *fate)
{
    fprintf(ledger->out, "call %u %llu %llu %lu %s\n", s,
            ledger->newest[s].which, indication->call,
            (unsigned long)indication->number.value, fate);
}

static void print_counts(FILE *out, const struct counts *counts)
{
    fprintf(out, " %llu", counts->calls);
    for (unsigned fate = 0; fate < FATES; fate++)
        fprintf(out, " %llu", counts->fates[fate]);
    fprintf(out, " %llu\n", counts->open);
}

static void add_counts(struct counts *total, const struct counts *counts)
{
    total->calls += counts->calls;
    for (unsigned fate = 0; fate < FATES; fate++)
        total->fates[fate] += counts->fates[fate];
    total->open += counts->open;
}

/* The lines of the calls that are still open, and that of the opening. */
static void print_opening(struct ledger *ledger, unsigned s)
{
    const struct opening *opening = &ledger->newest[s];

    for (unsigned i = 0; i < opening->counts.open; i++)
        print_call(ledger, s, &opening->open[i], "open");
    fprintf(ledger->out, "opening %u %llu", s, opening->which);
    print_counts(ledger->out, &opening->counts);

    ledger->openings++;
    add_counts(&ledger->total, &opening->counts);
}

bool second_note_opening(struct ledger *ledger, unsigned s)
{
    if (s >= STREAMS)
        return false;

    if (newest_opening(ledger, s) != NULL)
        print_opening(ledger, s);
    ledger->newest[s] = (struct opening){
        .which = ledger->newest[s].which + 1
    };
    return true;
}

bool second_note_call(struct ledger *ledger, unsigned s,
                      struct correlation number)
{
    struct opening *opening = newest_opening(ledger, s);

    if (opening == NULL || opening->counts.open == INDICATIONS)
        return false;

    opening->counts.calls++;
    opening->open[opening->counts.open] = (struct indication){
        .call = opening->counts.calls,
        .number = number
    };
    opening->counts.open++;
    return true;
}

/* The place of an open number, or the count of open ones if it is not open. */
static unsigned place_of(const struct opening *opening,
                         struct correlation number)
{
    unsigned place = 0;

    while (place < opening->counts.open
           && opening->open[place].number.value != number.value)
        place++;
    return place;
}

/* The indications behind the one that ends move up. */
static void end_indication(struct opening *opening, unsigned place)
{
    opening->counts.open--;
    for (; place < opening->counts.open; place++)
        opening->open[place] = opening->open[place + 1];
}

bool second_note_fate(struct ledger *ledger, unsigned s, enum fate fate,
                      struct correlation number)
{
    static const char *const words[FATES] = {
        [ACCEPTED] = "accepted",
        [DENIED] = "denied",
        [WITHDRAWN] = "withdrawn",
        [DROPPED] = "dropped",
    };
    struct opening *opening = newest_opening(ledger, s);
    unsigned place;

    if (opening == NULL)
        return false;

    opening->counts.fates[fate]++;
    place = place_of(opening, number);
    if (place < opening->counts.open) {
        print_call(ledger, s, &opening->open[place], words[fate]);
        end_indication(opening, place);
    }
    return true;
}

void second_sum_up(struct ledger *ledger)
{
    for (unsigned s = 0; s < STREAMS; s++)
        if (newest_opening(ledger, s) != NULL)
            print_opening(ledger, s);
    fprintf(ledger->out, "total %llu", ledger->openings);
    print_counts(ledger->out, &ledger->total);
}
