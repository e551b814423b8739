/* The rules that every call is held to, then the comparison of two. */
#include "judge.h"

#include <stdbool.h>
#include <string.h>

static bool is_table_kept(const struct lending *lending, const struct outcome *outcome)
{
    return memcmp(outcome->table, lending->table, lending->table_size) == 0;
}

static bool is_room_kept_from(size_t start, const struct lending *lending, const struct outcome *outcome)
{
    return memcmp(outcome->room + start, lending->room + start, lending->room_size - start) == 0;
}

static const char *judge_refused(const struct lending *lending, const struct outcome *outcome)
{
    if (KUNGTHEVI_WRITTEN(outcome->answer) != 0 || KUNGTHEVI_TOKEN(outcome->answer) != 0)
        return "refused, but gave bytes or a token";
    if (!is_table_kept(lending, outcome))
        return "refused, but changed the table";
    if (!is_room_kept_from(0, lending, outcome))
        return "refused, but changed the room";
    return NULL;
}

static const char *judge_served(const struct lending *lending, const struct outcome *outcome)
{
    if (lending->room_size < lending_room_needed(lending))
        return "served a call with too little room";
    if (KUNGTHEVI_WRITTEN(outcome->answer) > lending->room_size)
        return "gave more bytes than the room has";
    if (!is_room_kept_from(KUNGTHEVI_WRITTEN(outcome->answer), lending, outcome))
        return "changed the room behind its records";
    return NULL;
}

/* What the rule paper asks of every call, whatever it is about. */
static const char *judge_alone(const struct lending *lending, const struct outcome *outcome)
{
    if (outcome->trespass != NULL)
        return outcome->trespass;
    if (KUNGTHEVI_REFUSAL(outcome->answer) != 0)
        return judge_refused(lending, outcome);
    return judge_served(lending, outcome);
}

static const char *judge_together(const struct lending *lending, const struct outcome outcomes[PROVIDERS])
{
    const struct outcome *library = &outcomes[LIBRARY];
    const struct outcome *second = &outcomes[SECOND];
    if (library->answer != second->answer)
        return "differ in the answer";
    if (library->record_size != second->record_size)
        return "differ in the record's size";
    if (memcmp(library->table, second->table, lending->table_size) != 0)
        return "differ in the table";
    if (memcmp(library->room, second->room, lending->room_size) != 0)
        return "differ in the room";
    return NULL;
}

struct verdict judge_call(const struct lending *lending, const struct outcome outcomes[PROVIDERS])
{
    for (unsigned i = 0; i < PROVIDERS; i++) {
        const char *what = judge_alone(lending, &outcomes[i]);
        if (what != NULL)
            return (struct verdict){ providers[i].name, what };
    }
    return (struct verdict){ "the two", judge_together(lending, outcomes) };
}

static const char *judge_fresh_alone(const struct lending *lending, const struct outcome *outcome)
{
    if (outcome->trespass != NULL)
        return outcome->trespass;
    if (outcome->answer != 0 && !is_table_kept(lending, outcome))
        return "refused, but changed the table";
    return NULL;
}

struct verdict judge_fresh(const struct lending *lending, const struct outcome outcomes[PROVIDERS])
{
    for (unsigned i = 0; i < PROVIDERS; i++) {
        const char *what = judge_fresh_alone(lending, &outcomes[i]);
        if (what != NULL)
            return (struct verdict){ providers[i].name, what };
    }
    return (struct verdict){ "the two", judge_together(lending, outcomes) };
}
