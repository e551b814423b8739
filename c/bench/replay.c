/* Replay of a long capture by whole programs. */
#include "replay.h"

#include <stdio.h>
#include <string.h>

#include "command.h"
#include "long_capture.h"
#include "print.h"

enum {
    ROUNDS = 5,
    PATH_SIZE = 1024,
    PART_SIZE = 65536
};

struct replay {
    char *const *programs;
    unsigned count;
    char capture[PATH_SIZE];
    char first[PATH_SIZE]; /* what the first program printed */
    char other[PATH_SIZE]; /* what another one printed */
};

static bool name_file(char path[PATH_SIZE], const char *directory, const char *name)
{
    return snprintf(path, PATH_SIZE, "%s/%s", directory, name) < PATH_SIZE;
}

static bool name_files(struct replay *replay, const char *directory)
{
    return name_file(replay->capture, directory, "capture") &&
           name_file(replay->first, directory, "first.txt") &&
           name_file(replay->other, directory, "other.txt");
}

/* --- Comparing */

static enum status compare_open(FILE *left, FILE *right)
{
    static char left_part[PART_SIZE];
    static char right_part[PART_SIZE];
    size_t size;
    do {
        size = fread(left_part, 1, PART_SIZE, left);
        if (fread(right_part, 1, PART_SIZE, right) != size || memcmp(left_part, right_part, size) != 0)
            return DIFFERENT;
    } while (size > 0);
    return ferror(left) || ferror(right) ? NOT_RUN : ALIKE;
}

static enum status compare_files(const char *left_path, const char *right_path)
{
    enum status status = NOT_RUN;
    FILE *left = fopen(left_path, "rb");
    FILE *right = fopen(right_path, "rb");
    if (left != NULL && right != NULL)
        status = compare_open(left, right);
    if (left != NULL)
        fclose(left);
    if (right != NULL)
        fclose(right);
    return status;
}

static enum status compare_with_first(const struct replay *replay, const char *program)
{
    struct command_time unused;
    if (!command_run(program, replay->capture, replay->other, &unused))
        return NOT_RUN;
    enum status status = compare_files(replay->first, replay->other);
    if (status == DIFFERENT)
        fprintf(stderr, "bench: for %s, '%s' prints %s, but '%s' prints %s\n", replay->capture, replay->programs[0],
                replay->first, program, replay->other);
    return status;
}

static enum status compare_programs(const struct replay *replay)
{
    struct command_time unused;
    enum status status = ALIKE;
    if (!command_run(replay->programs[0], replay->capture, replay->first, &unused))
        return NOT_RUN;
    for (unsigned i = 1; i < replay->count && status == ALIKE; i++)
        status = compare_with_first(replay, replay->programs[i]);
    return status;
}

/* Texts that differ are left for a closer look. */
static void remove_texts(const struct replay *replay)
{
    (void)remove(replay->first);
    (void)remove(replay->other);
}

/* --- Timing */

/* The programs take turns. Comparing has warmed them up, and the capture. */
static bool time_round(const struct replay *replay, struct replay_times *times)
{
    for (unsigned i = 0; i < replay->count; i++) {
        struct command_time time;
        if (!command_run(replay->programs[i], replay->capture, "/dev/null", &time))
            return false;
        times_add(&times[i].wall, time.wall);
        times_add(&times[i].processor, time.processor);
    }
    return true;
}

static enum status time_programs(const struct replay *replay, uint64_t bytes)
{
    struct replay_times times[REPLAY_PROGRAMS] = { { .wall = { .count = 0 } } };
    for (unsigned round = 0; round < ROUNDS; round++)
        if (!time_round(replay, times))
            return NOT_RUN;
    print_replay_heading(ROUNDS);
    for (unsigned i = 0; i < replay->count; i++)
        print_replay(replay->programs[i], bytes, &times[i], &times[0]);
    return ALIKE;
}

enum status replay_measure(const char *directory, char *const programs[], unsigned count, bool timed)
{
    struct replay replay = { .programs = programs, .count = count };
    struct long_capture capture;
    if (!name_files(&replay, directory) || !long_capture_write(replay.capture, &capture)) {
        fprintf(stderr, "bench: no capture can be written to %s\n", directory);
        return NOT_RUN;
    }
    enum status status = compare_programs(&replay);
    if (status != ALIKE)
        return status;
    remove_texts(&replay);
    print_replay_capture(capture.bytes, capture.records);
    return timed ? time_programs(&replay, capture.bytes) : ALIKE;
}
