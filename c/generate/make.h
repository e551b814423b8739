/* The makers of records.
 *
 * A maker writes one record that its subject names (a code, a kind; 0 where it needs none), or returns false if the
 * table as it stands gives it nothing to work on. */
#ifndef GENERATE_MAKE_H
#define GENERATE_MAKE_H

#include "generator.h"

typedef bool maker(struct generator *generator, uint32_t subject, struct record *record);

/* make_table.c: PPAs, opening and closing. */
maker make_ppa;
maker make_opening;
maker make_closing;

/* make_request.c: complete requests. The subject is the code. */
maker make_right_request;     /* in a state with a row */
maker make_wrong_request;     /* in a state with a row, some of its fields wrong */
maker make_misplaced_request; /* of any code that is served, to any open stream, right or wrong */
maker make_cut_request;       /* of any code that is served, to any open stream, L under its size */

/* make_message.c: messages that are not requests we serve, and awkward ones. */
maker make_unsupported;
maker make_other_code;
maker make_any_length;
maker make_padded;

/* make_data.c */
maker make_data_by_itself;

/* Puts an M right behind a datagram that lacks it: mostly a right one, at times a wrong one or none. */
void make_data_behind(struct generator *generator, struct record *record);

/* make_line.c: what the line reports. The subject of an event is its kind. */
maker make_call;
maker make_call_too_many;
maker make_call_for_nobody;
maker make_right_event;
maker make_misplaced_event;

/* make_frame.c */
maker make_frame;            /* to a bound stream */
maker make_frame_for_nobody; /* mostly */
maker make_wrong_frame;

/* make_any.c: on top of the others. */
maker make_for_no_stream;
maker make_again;

/* The one kind of record that ends the reading of a capture. */
void make_end_of_reading(struct generator *generator, struct record *record);

/* A datagram whose M is cut: two calls, of which the second ends the reading. */
maker make_cut_datagram;

#endif
