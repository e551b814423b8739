/* main.c - the commands, on the standard streams. */
#include <signal.h>
#include <stdbool.h>
#include <stddef.h>
#include <stdio.h>
#include <string.h>

#include "ending.h"
#include "fates.h"
#include "replay.h"
#include "saps.h"

/* The exit statuses. */
enum {
    SUCCEEDED = 0,
    EXCLUDED = 1,
    FAILED = 2
};

struct command {
    const char *word;
    bool takes_words; /* behind its own */
    enum ending (*run)(char *const argv[]);
};

static enum ending run_replay(char *const argv[])
{
    (void)argv;
    return second_replay(stdin, stdout);
}

static enum ending run_fates(char *const argv[])
{
    (void)argv;
    return second_fates(stdin, stdout);
}

static enum ending run_sap(char *const argv[])
{
    return second_saps(argv + 2, stdout, stderr);
}

/* Without a word it is the first. NULL if there is no such command. */
static const struct command *find_command(int argc, char *const argv[])
{
    static const struct command commands[] = {
        { "replay", false, run_replay },
        { "fates", false, run_fates },
        { "sap", true, run_sap },
    };
    size_t count = sizeof commands / sizeof commands[0];

    if (argc <= 1)
        return &commands[0];
    for (size_t i = 0; i < count; i++)
        if (strcmp(argv[1], commands[i].word) == 0
            && (argc == 2 || commands[i].takes_words))
            return &commands[i];
    return NULL;
}

static const char *failure_of(enum ending ending)
{
    switch (ending) {
    case READING_FAILED:
        return "reading standard input failed";
    case WRITING_FAILED:
        return "writing standard output failed";
    case PROVIDER_FAILED:
        return "the provider wrote about a stream that was never opened,"
               " or more open indications than a stream may hold";
    default:
        return NULL;
    }
}

static int status_of(enum ending ending)
{
    switch (ending) {
    case DONE:
        return SUCCEEDED;
    case SOME_EXCLUDED:
        return EXCLUDED;
    default:
        return FAILED;
    }
}

int main(int argc, char **argv)
{
    const struct command *command = find_command(argc, argv);
    enum ending ending;
    const char *failure;

    if (command == NULL) {
        fputs("usage: second [replay | fates] < capture,"
              " or second sap NUMBER..\n", stderr);
        return FAILED;
    }
#ifdef SIGPIPE
    /* A closed pipe is to be a failed write, and not the program's end. */
    signal(SIGPIPE, SIG_IGN);
#endif
    ending = command->run(argv);
    failure = failure_of(ending);
    if (failure != NULL)
        fprintf(stderr, "dlpi %s: %s\n", command->word, failure);
    return status_of(ending);
}
