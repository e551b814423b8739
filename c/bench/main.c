/* bench [-n] [DIRECTORY PROGRAM..]: measures the library beside the second program. */
#include <stdio.h>
#include <string.h>

#include "calls.h"
#include "print.h"
#include "replay.h"

static const char usage[] =
    "usage: bench [-n] [DIRECTORY PROGRAM..]\n"
    "Calls a second by the library, by the second program and by the library without its soundness test.\n"
    "With a DIRECTORY, which must be there: writes a capture of 100 MB into it, and times how each PROGRAM replays it\n"
    "from standard input to standard output. A PROGRAM is one word, split at spaces into a program and what it is\n"
    "told ('target/c/kungthevi replay'); ratios are to the first one. At most 8 of them.\n"
    "  -n  compares the answers, but times nothing\n"
    "Exit status: 0 if all answers are alike, 1 if two differ, 2 if a program can't be run. Times never decide it.\n";

int main(int argc, char **argv)
{
    bool timed = argc < 2 || strcmp(argv[1], "-n") != 0;
    int first = timed ? 1 : 2;
    int programs = argc - first - 1;
    bool replays = argc > first;
    if (replays && (programs < 1 || programs > REPLAY_PROGRAMS || argv[first][0] == '-')) {
        fputs(usage, stderr);
        return NOT_RUN;
    }
    print_machine();
    enum status status = calls_measure(timed);
    if (status == ALIKE && replays)
        status = replay_measure(argv[first], argv + first + 1, (unsigned)programs, timed);
    return (int)status;
}
