/* The groups of checks, each in the file of its name. */
#ifndef ENTRIES_GROUPS_H
#define ENTRIES_GROUPS_H

#include "check.h"

void run_nothing(struct checks *checks);
void run_tables(struct checks *checks);
void run_rooms(struct checks *checks);
void run_records(struct checks *checks);
void run_pairs(struct checks *checks);
void run_addresses(struct checks *checks);
void run_answers(struct checks *checks);
void run_refusals(struct checks *checks);
void run_errors(struct checks *checks);
void run_datagrams(struct checks *checks);
void run_frames(struct checks *checks);
void run_states(struct checks *checks);
void run_saps(struct checks *checks);

#endif
