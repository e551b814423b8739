/* main.c - runs all tests of the provider and prints how many checks hold. */
#include <stdio.h>

#include "bench.h"
#include "groups.h"

int main(void)
{
    static struct bench bench;

    run_examples(&bench);
    run_replay(&bench);
    run_fates(&bench);
    run_many(&bench);
    run_faults(&bench);
    run_refusals(&bench);
    run_soundness(&bench);
    run_errors(&bench);
    run_responses(&bench);
    run_rows(&bench);
    run_numbers(&bench);
    run_pairs(&bench);
    run_datagrams(&bench);
    run_frames(&bench);
    run_boards(&bench);
    run_saps(&bench);
    printf("%u passed, %u failed\n", bench.passed, bench.failed);
    return bench.failed == 0 ? 0 : 1;
}
