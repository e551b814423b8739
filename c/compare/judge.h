/* Whether the two providers did the same, and each kept to what it was lent. */
#ifndef COMPARE_JUDGE_H
#define COMPARE_JUDGE_H

#include "provider.h"

struct verdict {
    const char *who;
    const char *what; /* it did wrong; NULL if nothing is */
};

struct verdict judge_call(const struct lending *lending, const struct outcome outcomes[PROVIDERS]);
struct verdict judge_fresh(const struct lending *lending, const struct outcome outcomes[PROVIDERS]);

#endif
