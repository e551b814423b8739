/* Printing what was measured, as text in columns. */
#ifndef BENCH_PRINT_H
#define BENCH_PRINT_H

#include "capture.h"
#include "compare.h"
#include "provider.h"
#include "times.h"

/* The kind of processor, where the system tells it. */
void print_machine(void);

void print_captures_heading(void);
void print_capture(const char *name, const struct capture *capture, const struct summary *summary);

void print_calls_heading(unsigned rounds);
void print_calls(const char *name, size_t calls, const struct times times[PROVIDERS]);

/* A program's times for replaying a capture. */
struct replay_times {
    struct times wall;
    struct times processor;
};

void print_replay_capture(uint64_t bytes, uint64_t records);
void print_replay_heading(unsigned rounds);
void print_replay(const char *command, uint64_t bytes, const struct replay_times *times,
                  const struct replay_times *first);

#endif
