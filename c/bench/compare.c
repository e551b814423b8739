/* Comparing what the providers make of a capture. */
#include "compare.h"

#include <stdio.h>
#include <string.h>

#include "../generate/image.h"
#include "../kungthevi.h"
#include "inner.h"
#include "provider.h"

enum { ERROR_ACK = 0x05 };

/* What is lent to a caller, and the number it returned last. */
struct loan {
    uint32_t answer;
    uint8_t table[KUNGTHEVI_TABLE_SIZE];
    uint8_t room[KUNGTHEVI_FRAME_ROOM_SIZE];
};

static void start(struct loan loans[CALLERS])
{
    memset(loans, 0, CALLERS * sizeof *loans);
    for (unsigned i = 0; i < CALLERS; i++)
        loans[i].answer = callers[i].fresh(loans[i].table, sizeof loans[i].table);
}

static void make_call(struct loan loans[CALLERS], const uint8_t *record, size_t size)
{
    for (unsigned i = 0; i < CALLERS; i++) {
        struct loan *loan = &loans[i];
        loan->answer = callers[i].call(loan->table, sizeof loan->table, record, size, loan->room, sizeof loan->room);
    }
}

static bool is_alike(const struct loan *left, const struct loan *right)
{
    return left->answer == right->answer &&
           memcmp(left->table, right->table, sizeof left->table) == 0 &&
           memcmp(left->room, right->room, sizeof left->room) == 0;
}

/* A caller whose loan is not as that of the second program, or CALLERS. */
static unsigned find_unlike(const struct loan loans[CALLERS])
{
    unsigned i = 0;
    while (i < CALLERS && is_alike(&loans[i], &loans[SECOND]))
        i++;
    return i;
}

static void sum_before(struct summary *summary, const uint8_t *table)
{
    summary->open_streams += image_open_streams(table);
    for (unsigned stream = 0; stream < STREAMS; stream++)
        summary->open_indications += image_indications(table, stream);
}

static bool is_error(const struct loan *loan)
{
    return KUNGTHEVI_WRITTEN(loan->answer) > 0 && loan->room[AT_KIND] == 'C' &&
           get32(loan->room + AT_BLOCK) == ERROR_ACK;
}

static void sum_after(struct summary *summary, const struct loan *loan)
{
    summary->refused += KUNGTHEVI_REFUSAL(loan->answer) != 0;
    summary->errors += is_error(loan);
    summary->ppas = image_ppas(loan->table);
}

/* Whether inner, from a table that is not fresh, refuses as many calls and leaves the same table. */
static bool is_run_alike(const struct capture *capture, uint64_t refused, const uint8_t *table)
{
    uint8_t own[KUNGTHEVI_TABLE_SIZE];
    memset(own, 0xff, sizeof own);
    return inner_run(own, sizeof own, capture->bytes, capture_size(capture)) == refused &&
           memcmp(own, table, sizeof own) == 0;
}

bool compare_providers(const char *name, const struct capture *capture, struct summary *summary)
{
    struct loan loans[CALLERS];
    *summary = (struct summary){ 0 };
    start(loans);
    for (size_t call = 0; call < capture->calls; call++) {
        sum_before(summary, loans[SECOND].table);
        make_call(loans, capture_record(capture, call), capture_record_size(capture, call));
        unsigned unlike = find_unlike(loans);
        if (unlike != CALLERS) {
            fprintf(stderr, "bench: %s, call %zu: %s and %s differ\n", name, call + 1, provider_names[unlike],
                    provider_names[SECOND]);
            return false;
        }
        sum_after(summary, &loans[SECOND]);
    }
    if (!is_run_alike(capture, summary->refused, loans[SECOND].table)) {
        fprintf(stderr, "bench: %s: %s and %s differ\n", name, provider_names[INNER], provider_names[SECOND]);
        return false;
    }
    return true;
}
