/* When a comparison ends. */
#include "comparison.h"

enum { MOST_DIFFERENCES = 10 };

bool comparison_is_over(const struct comparison *comparison)
{
    return comparison->counts.calls >= comparison->limit || comparison->counts.differences >= MOST_DIFFERENCES;
}
