/* The requests that are served: for each a way to fill it rightly, and ways to spoil it that the paper's order of
 * errors tells apart. */
#ifndef GENERATE_REQUEST_H
#define GENERATE_REQUEST_H

#include "array.h"
#include "pick.h"

/* Changes a message for the stream, whose fixed fields are within its L once it is filled. */
typedef void change(struct generator *generator, unsigned stream, struct record *record);

struct request {
    uint32_t code;
    unsigned size;
    unsigned states;  /* those with a row */
    stream_test *apt; /* whether a stream in such a state can be served, or NULL if each can */
    change *fill;
    change *const *spoilers;
    unsigned spoiler_count;
};

#define SPOILERS(array) .spoilers = array, .spoiler_count = LENGTH_OF(array)

/* request_plain.c: those with one field at most. */
extern const struct request request_info;
extern const struct request request_token;
extern const struct request request_attach;
extern const struct request request_detach;
extern const struct request request_unbind;
extern const struct request request_reset;
extern const struct request request_reset_answer;

/* Each in a file of its own. */
extern const struct request request_bind;
extern const struct request request_datagram;
extern const struct request request_connect;
extern const struct request request_accept;
extern const struct request request_disconnect;

/* A QOS length that is not 0; CONNECT_REQ and CONNECT_RES have it at the same place. */
change request_spoil_qos;

/* request_address.c: CONNECT_REQ and UNITDATA_REQ have length and offset of an address at the same places. */

/* Finishes the message with an address of so many bytes, any ones, and returns where it stands. */
uint8_t *request_fill_address(struct generator *generator, struct record *record, unsigned size);

/* Where the address of so many bytes stands, or NULL if its offset is not that of one within the message. */
uint8_t *request_find_address(struct record *record, unsigned size);

change request_spoil_address_length;
change request_spoil_offset_to_early;
change request_spoil_offset_to_late;
change request_spoil_offset_to_wrapping;

#endif
