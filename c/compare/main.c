/* compare [-d DIR] [CALLS [SEED]]: compares the library with the second program, call by call.
 *
 * First what both tell of the numbers of a SAP field. Then the captures of the seeds from SEED on, and changed forms of
 * them, are played to both until CALLS calls are compared: 1000000 from seed 1 if not told otherwise. A difference is
 * printed, and the capture that leads to a call on which they differ is written to a file in DIR, or where the program
 * runs. The exit status is 1 after any, and if enough calls left out something that they must reach. */
#include <stdio.h>
#include <string.h>

#include "../generate/number.h"
#include "saps.h"
#include "seeds.h"

enum {
    ALL_ALIKE = 0,
    NOT_ALIKE = 1,
    BAD_ARGUMENTS = 2,
    ENOUGH_FOR_ALL = 100000 /* calls that reach all that counts_are_full asks for */
};

static bool read_arguments(int argc, char **argv, struct comparison *comparison)
{
    if (argc >= 3 && strcmp(argv[1], "-d") == 0) {
        comparison->directory = argv[2];
        argc -= 2;
        argv += 2;
    }
    if (argc > 3 || (argc >= 2 && !number_read(argv[1], UINT64_MAX, &comparison->limit)))
        return false;
    return argc < 3 || number_read(argv[2], UINT64_MAX, &comparison->seed);
}

int main(int argc, char **argv)
{
    static struct comparison comparison = { .limit = 1000000, .directory = ".", .seed = 1 };
    if (!read_arguments(argc, argv, &comparison)) {
        fprintf(stderr, "usage: compare [-d DIR] [CALLS [SEED]]\n");
        return BAD_ARGUMENTS;
    }
    saps_compare(&comparison);
    seeds_compare(&comparison);
    counts_print(&comparison.counts);
    bool reached = comparison.counts.calls < ENOUGH_FOR_ALL || counts_are_full(&comparison.counts);
    return reached && comparison.counts.differences == 0 ? ALL_ALIKE : NOT_ALIKE;
}
