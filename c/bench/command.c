/* Running a program and timing it. */
#define _DEFAULT_SOURCE
#include "command.h"

#include <errno.h>
#include <fcntl.h>
#include <stdio.h>
#include <string.h>
#include <sys/resource.h>
#include <sys/wait.h>
#include <unistd.h>

#include "clock.h"

enum {
    LINE_SIZE = 1024,
    WORDS = 32
};

/* Exit statuses. 1 is no failure: by it a program tells that some call was refused. */
enum {
    FAILED = 2,
    NOT_FOUND = 127
};

/* Splits the line in place; the list of words ends with NULL. False if it has none or too many. */
static bool split(char *line, char *words[WORDS])
{
    char *rest = NULL;
    unsigned count = 0;
    for (char *word = strtok_r(line, " ", &rest); word != NULL; word = strtok_r(NULL, " ", &rest)) {
        if (count == WORDS - 1)
            return false;
        words[count++] = word;
    }
    words[count] = NULL;
    return count > 0;
}

static bool take_file(const char *path, int flags, int descriptor)
{
    int file = open(path, flags, 0666);
    return file >= 0 && dup2(file, descriptor) >= 0;
}

/* In the new process: becomes the program. Returns only if that fails. */
static void become(char *words[WORDS], const char *input, const char *output)
{
    if (!take_file(input, O_RDONLY, STDIN_FILENO))
        return;
    if (!take_file(output, O_WRONLY | O_CREAT | O_TRUNC, STDOUT_FILENO))
        return;
    (void)execvp(words[0], words);
}

static double seconds(struct timeval time)
{
    return (double)time.tv_sec + (double)time.tv_usec / 1e6;
}

/* Starts the program and waits for its end. False if it fails. */
static bool run(char *words[WORDS], const char *input, const char *output, struct command_time *time)
{
    struct rusage usage;
    int status;
    double start = clock_wall();
    pid_t child = fork();
    if (child < 0)
        return false;
    if (child == 0) {
        become(words, input, output);
        fprintf(stderr, "bench: %s: %s\n", words[0], strerror(errno));
        _exit(NOT_FOUND);
    }
    if (wait4(child, &status, 0, &usage) != child)
        return false;
    time->wall = clock_wall() - start;
    time->processor = seconds(usage.ru_utime) + seconds(usage.ru_stime);
    return WIFEXITED(status) && WEXITSTATUS(status) < FAILED;
}

bool command_run(const char *line, const char *input, const char *output, struct command_time *time)
{
    char copy[LINE_SIZE];
    char *words[WORDS];
    if (snprintf(copy, sizeof copy, "%s", line) < (int)sizeof copy && split(copy, words) &&
        run(words, input, output, time))
        return true;
    fprintf(stderr, "bench: '%s' can't be run from %s to %s\n", line, input, output);
    return false;
}
