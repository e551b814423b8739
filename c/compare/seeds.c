/* The order of a comparison: seed by seed, form by form. */
#include "seeds.h"

#include "mutate.h"
#include "play.h"
#include "progress.h"

enum {
    FORMS = 8, /* of a capture */
    LEAST_RECORDS = 100
};

static void make_form(struct comparison *comparison)
{
    if (comparison->form == 0)
        mutate_nothing(&comparison->originals, &comparison->capture);
    else
        mutate_capture(&comparison->originals, &comparison->dice, &comparison->capture);
}

static void compare_seed(struct comparison *comparison)
{
    /* Not the draws that the generator makes of the same seed. */
    comparison->dice = dice_from_seed(~comparison->seed);
    uint32_t more = dice_below(&comparison->dice, MOST_RECORDS - LEAST_RECORDS + 1);
    originals_generate(&comparison->originals, comparison->seed, LEAST_RECORDS + more);
    comparison->kept.count = 0;
    comparison->counts.captures++;
    for (comparison->form = 0; comparison->form < FORMS; comparison->form++) {
        if (comparison_is_over(comparison))
            return;
        make_form(comparison);
        comparison->counts.forms++;
        play_form(comparison);
    }
}

void seeds_compare(struct comparison *comparison)
{
    for (; !comparison_is_over(comparison); comparison->seed++) {
        progress_show(comparison->counts.calls, comparison->limit);
        compare_seed(comparison);
    }
    progress_end();
}
