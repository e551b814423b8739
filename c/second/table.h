/* table.h - the table of PPAs and streams, and what may be asked of it. */
#ifndef TABLE_H
#define TABLE_H

#include <stdbool.h>
#include <stdint.h>

enum {
    STREAMS = 16,
    PPAS = 8,
    INDICATIONS = 8, /* the most open indications of a stream */
    MAC_SIZE = 6
};

/* The states that stand between calls, by the manual's numbers. */
enum state {
    UNATTACHED = 0,
    UNBOUND = 3,
    IDLE = 6,
    OUTGOING_PENDING = 8,
    INCOMING_PENDING = 9,
    CONNECTED = 11,
    USER_RESET_PENDING = 12,
    PROVIDER_RESET_PENDING = 13
};

enum mode {
    NO_MODE = 0, /* while unbound */
    CONNECTION = 1,
    CONNECTIONLESS = 2
};

/* Unlike quantities, kept apart by unlike types. */
struct token {
    uint32_t value;
};

struct correlation {
    uint32_t value;
};

struct ppa_number {
    uint32_t value;
};

struct ppa {
    struct ppa_number number;
    uint8_t mac[MAC_SIZE];
};

struct stream {
    bool open;
    uint8_t state;
    uint8_t mode;
    uint16_t sap;          /* SAP or Ethernet type, 0 while unbound */
    struct ppa_number ppa; /* 0 while unattached */
    uint8_t granted;       /* the count granted at the bind */
    uint8_t indications;   /* how many indications are open */
    struct correlation indication[INDICATIONS]; /* oldest first, then zeros */
};

struct table {
    bool opened; /* there was an opening, even if all are closed again */
    uint8_t ppas;
    struct ppa ppa[PPAS]; /* in the order in which they were added */
    struct correlation counter;
    struct stream stream[STREAMS];
};

struct table second_fresh_table(void);

bool second_state_has_row(uint8_t state);

/* A stream's token is its number plus 1. */
struct token second_token_of(unsigned s);

/* NULL if the table has no PPA of that number. */
const struct ppa *second_find_ppa(const struct table *table,
                                  struct ppa_number number);

/* The stream that listens for the PPA and SAP, or STREAMS if nobody does. */
unsigned second_find_listener(const struct table *table, struct ppa_number ppa,
                              uint16_t sap);

/* In 8, 11, 12 and 13 the stream has a peer, or awaits its acceptance. */
bool second_has_peer(const struct stream *stream);

bool second_has_indication(const struct stream *stream,
                           struct correlation number);

/* The number for a new indication; the counter then stands one past it. */
struct correlation second_take_number(struct table *table);

/* The listener gains an open indication and stands in state 9. */
void second_gain_indication(struct stream *listener, struct correlation number);

/* The listener loses an open indication, and goes to 6 at the last one. */
void second_lose_indication(struct stream *listener, struct correlation number);

#endif
