/* groups.h - the groups of tests, each in the file of its name. */
#ifndef GROUPS_H
#define GROUPS_H

#include "bench.h"

void run_examples(struct bench *b);
void run_replay(struct bench *b);
void run_fates(struct bench *b);
void run_many(struct bench *b);
void run_faults(struct bench *b);
void run_refusals(struct bench *b);
void run_soundness(struct bench *b);
void run_errors(struct bench *b);
void run_responses(struct bench *b);
void run_rows(struct bench *b);
void run_numbers(struct bench *b);
void run_pairs(struct bench *b);
void run_datagrams(struct bench *b);
void run_frames(struct bench *b);
void run_boards(struct bench *b);
void run_saps(struct bench *b);

#endif
