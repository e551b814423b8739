/* entries: tests the library's entries as a C program meets them, through kungthevi.h alone. */
#include <stdio.h>

#include "groups.h"

int main(void)
{
    struct checks checks = { 0, 0 };
    run_nothing(&checks);
    run_tables(&checks);
    run_rooms(&checks);
    run_records(&checks);
    run_pairs(&checks);
    run_addresses(&checks);
    run_answers(&checks);
    run_refusals(&checks);
    run_errors(&checks);
    run_datagrams(&checks);
    run_frames(&checks);
    run_states(&checks);
    run_saps(&checks);
    printf("%u passed, %u failed\n", checks.passed, checks.failed);
    return checks.failed == 0 ? 0 : 1;
}
