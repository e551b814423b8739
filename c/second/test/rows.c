/*
 * rows.c - tests the state rows and the event rows: each request and each
 * event, in each way in which a stream can stand; and closing.
 */
#include <stdint.h>
#include <string.h>

#include "bench.h"
#include "groups.h"

struct row {
    const char *in;
    const char *from;
    const char *out;
    const char *after;
};

static const struct row *find_row(const struct row *rows, size_t count,
                                  const char *in, const char *from)
{
    for (size_t i = 0; i < count; i++)
        if (strcmp(rows[i].in, in) == 0 && strcmp(rows[i].from, from) == 0)
            return &rows[i];
    return NULL;
}

#define INFO_MESSAGE "P 2 00000000"
#define TOKEN_MESSAGE "P 2 00000011"
#define ATTACH_MESSAGE "P 2 0000000b 00000001"
#define DETACH_MESSAGE "P 2 0000000c"
#define BIND_MESSAGE "P 2 00000001 00000080 00000002 0001 0000 00000000"
#define UNBIND_MESSAGE "P 2 00000002"
#define CONNECT_MESSAGE "P 2 0000000d " CONNECT_FIELDS " 02000000000984"
#define ACCEPT_MESSAGE \
    "P 2 0000000f 00000005 00000000 00000000 00000000 00000000"
#define DISCONNECT_MESSAGE "P 2 00000013 00000021 00000000"
#define DENY_MESSAGE "P 2 00000013 00000021 00000005"
#define RESET_MESSAGE "P 2 00000017"
#define RESET_RES_MESSAGE "P 2 00000019"

#define TOKEN_REPLY "C 2 00000012 00000003"
#define UNBIND_REPLY "F 2; C 2 00000006 00000002"
#define DISCONNECT_REPLY \
    "d 2 00000000 00000021; F 2; C 2 00000006 00000013"
#define DENY_BADCORR "C 2 00000005 00000013 00000005 00000000"

static const char *const request_messages[] = {
    INFO_MESSAGE, TOKEN_MESSAGE, ATTACH_MESSAGE, DETACH_MESSAGE, BIND_MESSAGE,
    UNBIND_MESSAGE, CONNECT_MESSAGE, ACCEPT_MESSAGE, DISCONNECT_MESSAGE,
    DENY_MESSAGE, RESET_MESSAGE, RESET_RES_MESSAGE,
};

static const struct row request_rows[] = {
    { INFO_MESSAGE, "00", "C 2 " INFO_UNBOUND("00000004"), "00" },
    { INFO_MESSAGE, UNBOUND_SLOT, "C 2 " INFO_UNBOUND("00000000"),
      UNBOUND_SLOT },
    { INFO_MESSAGE, IDLE_SLOT, "C 2 " INFO_BOUND("00000003"), IDLE_SLOT },
    { INFO_MESSAGE, TYPE_SLOT, "C 2 " INFO_TYPE, TYPE_SLOT },
    { INFO_MESSAGE, CALLING_SLOT, "C 2 " INFO_BOUND("00000008"),
      CALLING_SLOT },
    { INFO_MESSAGE, CALLED_SLOT, "C 2 " INFO_BOUND("00000009"), CALLED_SLOT },
    { INFO_MESSAGE, CONNECTED_SLOT, "C 2 " INFO_BOUND("0000000b"),
      CONNECTED_SLOT },
    { INFO_MESSAGE, USER_RESET_SLOT, "C 2 " INFO_BOUND("0000000c"),
      USER_RESET_SLOT },
    { INFO_MESSAGE, PEER_RESET_SLOT, "C 2 " INFO_BOUND("0000000d"),
      PEER_RESET_SLOT },

    { TOKEN_MESSAGE, "00", TOKEN_REPLY, "00" },
    { TOKEN_MESSAGE, UNBOUND_SLOT, TOKEN_REPLY, UNBOUND_SLOT },
    { TOKEN_MESSAGE, IDLE_SLOT, TOKEN_REPLY, IDLE_SLOT },
    { TOKEN_MESSAGE, TYPE_SLOT, TOKEN_REPLY, TYPE_SLOT },
    { TOKEN_MESSAGE, CALLING_SLOT, TOKEN_REPLY, CALLING_SLOT },
    { TOKEN_MESSAGE, CALLED_SLOT, TOKEN_REPLY, CALLED_SLOT },
    { TOKEN_MESSAGE, CONNECTED_SLOT, TOKEN_REPLY, CONNECTED_SLOT },
    { TOKEN_MESSAGE, USER_RESET_SLOT, TOKEN_REPLY, USER_RESET_SLOT },
    { TOKEN_MESSAGE, PEER_RESET_SLOT, TOKEN_REPLY, PEER_RESET_SLOT },

    { ATTACH_MESSAGE, "00", "C 2 00000006 0000000b", UNBOUND_SLOT },
    { DETACH_MESSAGE, UNBOUND_SLOT, "C 2 00000006 0000000c", "00" },
    { BIND_MESSAGE, UNBOUND_SLOT,
      "C 2 00000004 00000080 00000007 00000018 00000002 00000000"
      " 02000000000180",
      IDLE_SLOT },
    { UNBIND_MESSAGE, IDLE_SLOT, UNBIND_REPLY, UNBOUND_SLOT },
    { UNBIND_MESSAGE, TYPE_SLOT, UNBIND_REPLY, UNBOUND_SLOT },
    { CONNECT_MESSAGE, IDLE_SLOT, "c 2 02000000000984", CALLING_SLOT },
    { ACCEPT_MESSAGE, CALLED_SLOT, "a 2 00000005; C 2 00000006 0000000f",
      CONNECTED_SLOT },

    { DISCONNECT_MESSAGE, CALLING_SLOT,
      "d 2 00000000 00000021; C 2 00000006 00000013", IDLE_SLOT },
    { DISCONNECT_MESSAGE, CALLED_SLOT, DENY_BADCORR, CALLED_SLOT },
    { DISCONNECT_MESSAGE, CONNECTED_SLOT, DISCONNECT_REPLY, IDLE_SLOT },
    { DISCONNECT_MESSAGE, USER_RESET_SLOT, DISCONNECT_REPLY, IDLE_SLOT },
    { DISCONNECT_MESSAGE, PEER_RESET_SLOT, DISCONNECT_REPLY, IDLE_SLOT },

    { DENY_MESSAGE, CALLING_SLOT, DENY_BADCORR, CALLING_SLOT },
    { DENY_MESSAGE, CALLED_SLOT,
      "d 2 00000005 00000021; C 2 00000006 00000013", IDLE_SLOT },
    { DENY_MESSAGE, CONNECTED_SLOT, DENY_BADCORR, CONNECTED_SLOT },
    { DENY_MESSAGE, USER_RESET_SLOT, DENY_BADCORR, USER_RESET_SLOT },
    { DENY_MESSAGE, PEER_RESET_SLOT, DENY_BADCORR, PEER_RESET_SLOT },

    { RESET_MESSAGE, CONNECTED_SLOT, "r 2", USER_RESET_SLOT },
    { RESET_RES_MESSAGE, PEER_RESET_SLOT, "s 2; C 2 00000006 00000019",
      CONNECTED_SLOT },
};

/* P and C from a user are treated alike. */
static void try_request(struct bench *b, const char *in, const char *from,
                        uint8_t kind)
{
    size_t count = COUNT(request_rows);
    const struct row *row = find_row(request_rows, count, in, from);
    uint8_t record[LONGEST_TEXT];
    size_t size = parse_records(in, record);

    record[0] = kind;
    start(b);
    stand(b, 2, from);
    stand(b, 3, "09 01 0082 00000001 02 01 00000006");
    if (row == NULL) {
        error_bytes(b, record, size, OUTSTATE, in);
        return;
    }
    serve_bytes(b, record, size, 0, row->out, in);
    put_open(b->want, 2, row->after);
    same_table(b, in);
}

static void test_state_rows(struct bench *b)
{
    size_t count = COUNT(request_messages);

    b->topic = "state rows";
    for (size_t i = 0; i < count; i++)
        for (size_t j = 0; j < STANDINGS; j++) {
            try_request(b, request_messages[i], standings[j], 'P');
            try_request(b, request_messages[i], standings[j], 'C');
        }
}

#define ACCEPTED_EVENT "A 2 02000000000985"
#define GONE_EVENT "D 2 00000021"
#define WITHDRAWN_EVENT "W 2 00000005 00000021"
#define RESET_EVENT "R 2 00000021"
#define CONFIRMED_EVENT "S 2"

#define GONE_IND "P 2 00000014 00000701 00000021 00000000"

static const char *const events[] = {
    ACCEPTED_EVENT, GONE_EVENT, WITHDRAWN_EVENT, RESET_EVENT, CONFIRMED_EVENT,
};

static const struct row event_rows[] = {
    { ACCEPTED_EVENT, CALLING_SLOT,
      "P 2 00000010 00000007 00000018 00000000 00000000 00000000"
      " 02000000000985",
      CONNECTED_SLOT },
    { GONE_EVENT, CALLING_SLOT, GONE_IND, IDLE_SLOT },
    { GONE_EVENT, CONNECTED_SLOT, "F 2; " GONE_IND, IDLE_SLOT },
    { GONE_EVENT, USER_RESET_SLOT, "F 2; " GONE_IND, IDLE_SLOT },
    { GONE_EVENT, PEER_RESET_SLOT, "F 2; " GONE_IND, IDLE_SLOT },
    { WITHDRAWN_EVENT, CALLED_SLOT, "P 2 00000014 00000701 00000021 00000005",
      IDLE_SLOT },
    { RESET_EVENT, CONNECTED_SLOT, "F 2; P 2 00000018 00000701 00000021",
      PEER_RESET_SLOT },
    { CONFIRMED_EVENT, USER_RESET_SLOT, "F 2; P 2 0000001a", CONNECTED_SLOT },
};

static void try_event(struct bench *b, const char *in, const char *from)
{
    size_t count = COUNT(event_rows);
    const struct row *row = find_row(event_rows, count, in, from);

    start(b);
    stand(b, 2, from);
    stand(b, 3, "09 01 0082 00000001 02 01 00000006");
    if (row == NULL) {
        refuse(b, in, 6);
        return;
    }
    serve(b, in, row->out);
    put_open(b->want, 2, row->after);
    same_table(b, in);
}

static void test_event_rows(struct bench *b)
{
    size_t count = COUNT(events);

    b->topic = "event rows";
    for (size_t i = 0; i < count; i++)
        for (size_t j = 0; j < STANDINGS; j++)
            try_event(b, events[i], standings[j]);
}

/* The stream of an I is the one that listens. */
static void test_call_rows(struct bench *b)
{
    const char *call = "I 00000001 02000000000180 ffffffffffffff";
    static const uint32_t refusals[STANDINGS] = { 7, 7, 0, 7, 8, 0, 8, 8, 8 };

    b->topic = "event rows of I";
    for (size_t i = 0; i < STANDINGS; i++)
        if (refusals[i] != 0) {
            start(b);
            stand(b, 2, standings[i]);
            refuse(b, call, refusals[i]);
        }

    start(b);
    stand(b, 2, IDLE_SLOT);
    stand(b, 1, "06 01 0080 00000002 02");
    serve(b, call,
          "P 2 0000000e 00000011 00000007 00000024 00000007 0000002b 00000000"
          " 00000000 00000000 02000000000180 ffffffffffffff");
    put_open(b->want, 2, "09 01 0080 00000001 02 01 00000011");
    put_number(b->want + COUNTER, 0x12);
    same_table(b, "I from 6");
    serve(b, "I 00000001 02000000000180 02000000000283",
          "P 2 0000000e 00000012 00000007 00000024 00000007 0000002b 00000000"
          " 00000000 00000000 02000000000180 02000000000283");
    put_open(b->want, 2, "09 01 0080 00000001 02 02 00000011 00000012");
    put_number(b->want + COUNTER, 0x13);
    same_table(b, "I from 9");
    refuse(b, call, 8);
}

static void test_withdrawals(struct bench *b)
{
    b->topic = "withdrawals";
    start(b);
    stand(b, 2, "09 01 0080 00000001 08 03 00000005 00000007 00000006");
    serve(b, "W 2 00000007 ffffffff",
          "P 2 00000014 00000701 ffffffff 00000007");
    put_open(b->want, 2, "09 01 0080 00000001 08 02 00000005 00000006");
    same_table(b, "the middle one of three");
    serve(b, "W 2 00000005 00000000",
          "P 2 00000014 00000701 00000000 00000005");
    put_open(b->want, 2, "09 01 0080 00000001 08 01 00000006");
    same_table(b, "the oldest of two");
    refuse(b, "W 2 00000005 00000000", 6);
    serve(b, "W 2 00000006 00000001",
          "P 2 00000014 00000701 00000001 00000006");
    put_open(b->want, 2, "06 01 0080 00000001 08");
    same_table(b, "the last");

    start(b);
    stand(b, 2, "09 01 0080 00000001 08 08 00000001 00000002 00000003 00000004"
                " 00000005 00000006 00000007 00000008");
    stand(b, 3, "0b 01 0080 00000001 00");
    serve(b, "W 2 00000001 00000000",
          "P 2 00000014 00000701 00000000 00000001");
    put_open(b->want, 2, "09 01 0080 00000001 08 07 00000002 00000003 00000004"
                         " 00000005 00000006 00000007 00000008");
    same_table(b, "the oldest of eight");
}

static void test_close(struct bench *b)
{
    static const char *const out[STANDINGS] = {
        "", "", "", "", "d 2 00000000 00000000", "d 2 00000005 00000000",
        "d 2 00000000 00000000", "d 2 00000000 00000000",
        "d 2 00000000 00000000",
    };

    b->topic = "close";
    for (size_t i = 0; i < STANDINGS; i++) {
        start(b);
        stand(b, 2, standings[i]);
        stand(b, 3, "09 01 0082 00000001 02 01 00000006");
        serve(b, "X 2", out[i]);
        put_closed(b->want, 2);
        same_table(b, standings[i]);
        refuse(b, "X 2", 2);
        serve_open(b, 0);
        serve_open(b, 1);
        serve_open(b, 2);
    }

    start(b);
    stand(b, 15, "09 01 0080 00000001 08 08 00000008 00000001 ffffffff 00000004"
                 " 00000003 00000006 00000007 00000002");
    serve(b, "X 15",
          "d 15 00000008 00000000; d 15 00000001 00000000;"
          "d 15 ffffffff 00000000; d 15 00000004 00000000;"
          "d 15 00000003 00000000; d 15 00000006 00000000;"
          "d 15 00000007 00000000; d 15 00000002 00000000");
    put_closed(b->want, 15);
    same_table(b, "eight open, oldest first");
}

void run_rows(struct bench *b)
{
    test_state_rows(b);
    test_event_rows(b);
    test_call_rows(b);
    test_withdrawals(b);
    test_close(b);
}
