/*
 * errors.c - tests the errors of steps 1 to 5: codes and sizes of messages,
 * states, ATTACH, BIND and CONNECT_REQ; and the binds that are served.
 */
#include <stdint.h>

#include "bench.h"
#include "groups.h"

static void test_errors_of_step_1(struct bench *b)
{
    static const char *const not_supported[] = {
        "P 2 0000000a", "P 2 00000015", "P 2 0000001b", "P 2 0000001d",
        "P 2 0000001e", "P 2 0000001f", "P 2 00000020",
        "C 2 0000000a 00000001 00000002",
    };
    static const char *const bad[] = {
        "P 2 00000003", "P 2 00000004", "P 2 00000005", "P 2 00000006",
        "P 2 00000008", "P 2 00000009", "P 2 0000000e", "P 2 00000010",
        "P 2 00000012", "P 2 00000014", "P 2 00000016", "P 2 00000018",
        "P 2 0000001a", "P 2 0000001c", "P 2 00000021", "P 2 000000ff",
        "P 2 00000100", "P 2 01000000", "P 2 0000010b 00000001",
        "P 2 00000107", "P 2 07000000", "P 2 ffffffff",
    };

    b->topic = "errors of step 1, codes";
    for (size_t i = 0; i < STANDINGS; i++) {
        start(b);
        stand(b, 2, standings[i]);
        for (size_t j = 0; j < COUNT(not_supported); j++)
            error(b, not_supported[j], NOTSUPPORTED);
        for (size_t j = 0; j < COUNT(bad); j++)
            error(b, bad[j], BADPRIM);
    }
}

/* L under the size: BADPRIM, in states with and without a row. */
static void test_errors_of_sizes(struct bench *b)
{
    static const struct {
        const char *code;
        uint8_t size;
    } requests[] = {
        { "0000000b", 8 }, { "00000001", 20 }, { "0000000d", 24 },
        { "0000000f", 24 }, { "00000013", 12 },
    };

    b->topic = "errors of step 1, sizes";
    for (size_t i = 0; i < STANDINGS; i++) {
        start(b);
        stand(b, 2, standings[i]);
        for (size_t j = 0; j < COUNT(requests); j++)
            for (uint8_t length = 4; length < requests[j].size; length++) {
                uint8_t record[99];

                message(record, 2, length, requests[j].code);
                error_bytes(b, record, 99, BADPRIM, requests[j].code);
            }
    }
}

/* L may exceed the fixed size. */
static void test_longer_messages(struct bench *b)
{
    uint8_t record[99];

    b->topic = "messages longer than their size";
    start(b);
    stand(b, 2, "00");
    message(record, 2, 96, "0000000b 00000001 ffffffff");
    record[98] = 0xff;
    serve_bytes(b, record, 99, 0, "C 2 00000006 0000000b", "ATTACH, L 96");
    put_open(b->want, 2, UNBOUND_SLOT);
    same_table(b, "ATTACH, L 96");
    message(record, 2, 21, "00000001 00000080 00000002 0001 0000 00000000 ff");
    serve_bytes(b, record, 99, 0,
                "C 2 00000004 00000080 00000007 00000018 00000002 00000000"
                " 02000000000180",
                "BIND, L 21");
    put_open(b->want, 2, IDLE_SLOT);
    same_table(b, "BIND, L 21");
    message(record, 2, 5, "00000002 ff");
    serve_bytes(b, record, 99, 0, "F 2; C 2 00000006 00000002", "UNBIND, L 5");
}

/* OUTSTATE comes before the errors of the later steps. */
static void test_errors_of_step_2(struct bench *b)
{
    b->topic = "errors of step 2";
    start(b);
    stand(b, 2, UNBOUND_SLOT);
    error(b, "P 2 0000000b 00000099", OUTSTATE);
    error(b, "P 2 0000000d 00000009 00000000 00000001 00000000 00000000",
          OUTSTATE);
    error(b, "P 2 0000000f 00000009 00000099 00000001 00000000 00000000",
          OUTSTATE);
    error(b, "P 2 00000013 00000000 00000099", OUTSTATE);
    stand(b, 2, TYPE_SLOT);
    error(b, "P 2 0000000d " CONNECT_FIELDS " 02000000000984", OUTSTATE);
    stand(b, 2, "06 02 0080 00000001");
    error(b, "P 2 0000000d " CONNECT_FIELDS " 02000000000984", OUTSTATE);
}

static void test_errors_of_attach(struct bench *b)
{
    b->topic = "errors of step 3, ATTACH";
    start(b);
    stand(b, 2, "00");
    error(b, "P 2 0000000b 00000000", BADPPA);
    error(b, "P 2 0000000b 00000003", BADPPA);
    error(b, "P 2 0000000b 01000001", BADPPA);
    error(b, "P 2 0000000b ffffffff", BADPPA);
    serve(b, "P 2 0000000b 00000002", "C 2 00000006 0000000b");
    put_open(b->want, 2, "03 00 0000 00000002");
    same_table(b, "attached to PPA 2");
}

static void test_errors_of_bind(struct bench *b)
{
    b->topic = "errors of step 4, BIND";
    start(b);
    stand(b, 2, UNBOUND_SLOT);
    stand(b, 3, IDLE_SLOT);
    /* The mode, and conn_mgmt, before all others. */
    error(b, "P 2 00000001 00000081 00000001 0000 0000 00000001", UNSUPPORTED);
    error(b, "P 2 00000001 00000081 00000001 0003 0000 00000001", UNSUPPORTED);
    error(b, "P 2 00000001 00000082 00000001 0004 0000 00000000", UNSUPPORTED);
    error(b, "P 2 00000001 00000082 00000001 0101 0000 00000000", UNSUPPORTED);
    error(b, "P 2 00000001 00000081 00000001 0001 0001 00000001", UNSUPPORTED);
    error(b, "P 2 00000001 00000082 00000001 0002 0100 00000000", UNSUPPORTED);
    error(b, "P 2 00000001 00000081 00000001 0001 0000 00000001", NOAUTO);
    error(b, "P 2 00000001 00000082 00000001 0002 0000 01000000", NOAUTO);
    error(b, "P 2 00000001 00000001 00000001 0001 0000 00000000", BADADDR);
    error(b, "P 2 00000001 00000006 00000001 0001 0000 00000000", BADADDR);
    error(b, "P 2 00000001 00000006 00000001 0002 0000 00000000", BADADDR);
    error(b, "P 2 00000001 000000ff 00000001 0002 0000 00000000", BADADDR);
    error(b, "P 2 00000001 00000100 00000001 0002 0000 00000000", BADADDR);
    error(b, "P 2 00000001 000005fe 00000001 0001 0000 00000000", BADADDR);
    error(b, "P 2 00000001 000005ff 00000001 0001 0000 00000000", BADADDR);
    error(b, "P 2 00000001 00010000 00000001 0002 0000 00000000", BADADDR);
    error(b, "P 2 00000001 00010080 00000001 0001 0000 00000000", BADADDR);
    error(b, "P 2 00000001 80000080 00000001 0002 0000 00000000", BADADDR);
    error(b, "P 2 00000001 00010800 00000001 0002 0000 00000000", BADADDR);
    error(b, "P 2 00000001 00000600 00000000 0001 0000 00000000", UNSUPPORTED);
    error(b, "P 2 00000001 0000ffff 00000001 0001 0000 00000000", UNSUPPORTED);
    error(b, "P 2 00000001 00000080 00000001 0001 0000 00000000", BOUND);
    error(b, "P 2 00000001 00000080 ffffffff 0001 0000 00000000", BOUND);
}

/* A stream listens until unbind or close, whatever its state. */
static void test_bound_meanwhile(struct bench *b)
{
    static const char *const listeners[] = {
        IDLE_SLOT, CALLING_SLOT, CALLED_SLOT, CONNECTED_SLOT, USER_RESET_SLOT,
        PEER_RESET_SLOT,
    };
    static const char *const others[] = {
        "06 01 0080 00000001 00", "06 02 0080 00000001 00",
        "06 01 0080 00000002 02", "06 01 0082 00000001 02", UNBOUND_SLOT,
    };
    const char *bind = "P 2 00000001 00000080 00000002 0001 0000 00000000";
    const char *bind_ack = "C 2 00000004 00000080 00000007 00000018 00000002"
                           " 00000000 02000000000180";

    b->topic = "BOUND";
    for (size_t i = 0; i < COUNT(listeners); i++) {
        start(b);
        stand(b, 2, UNBOUND_SLOT);
        stand(b, 15, listeners[i]);
        error(b, bind, BOUND);
    }
    for (size_t i = 0; i < COUNT(others); i++) {
        start(b);
        stand(b, 2, UNBOUND_SLOT);
        stand(b, 15, others[i]);
        serve(b, bind, bind_ack);
        put_open(b->want, 2, IDLE_SLOT);
        same_table(b, others[i]);
    }

    start(b);
    stand(b, 2, UNBOUND_SLOT);
    stand(b, 15, IDLE_SLOT);
    error(b, bind, BOUND);
    serve(b, "P 15 00000002", "F 15; C 15 00000006 00000002");
    serve(b, bind, bind_ack);
    stand(b, 15, UNBOUND_SLOT);
    error(b, "P 15 00000001 00000080 00000001 0001 0000 00000000", BOUND);
    serve(b, "X 2", "");
    serve(b, "P 15 00000001 00000080 00000001 0001 0000 00000000",
          "C 15 00000004 00000080 00000007 00000018 00000001 00000000"
          " 02000000000180");
}

static void test_binds_served(struct bench *b)
{
    static const struct {
        const char *in;
        const char *out;
        const char *after;
    } binds[] = {
        { "P 2 00000001 00000080 00000000 0001 0000 00000000",
          "C 2 00000004 00000080 00000007 00000018 00000000 00000000"
          " 02000000000180",
          "06 01 0080 00000001 00" },
        { "P 2 00000001 00000080 00000005 0002 0000 00000000",
          "C 2 00000004 00000080 00000007 00000018 00000000 00000000"
          " 02000000000180",
          "06 02 0080 00000001 00" },
        { "P 2 00000001 00000000 00000007 0001 0000 00000000",
          "C 2 00000004 00000000 00000007 00000018 00000007 00000000"
          " 02000000000100",
          "06 01 0000 00000001 07" },
        { "P 2 00000001 000000aa 00000008 0001 0000 00000000",
          "C 2 00000004 000000aa 00000007 00000018 00000008 00000000"
          " 020000000001aa",
          "06 01 00aa 00000001 08" },
        { "P 2 00000001 000000fe ffffffff 0001 0000 00000000",
          "C 2 00000004 000000fe 00000007 00000018 00000008 00000000"
          " 020000000001fe",
          "06 01 00fe 00000001 08" },
        { "P 2 00000001 00000600 00000001 0002 0000 00000000",
          "C 2 00000004 00000600 00000008 00000018 00000000 00000000"
          " 0200000000010600",
          "06 02 0600 00000001 00" },
        { "P 2 00000001 0000ffff 00000000 0002 0000 00000000",
          "C 2 00000004 0000ffff 00000008 00000018 00000000 00000000"
          " 020000000001ffff",
          "06 02 ffff 00000001 00" },
    };

    b->topic = "binds that are served";
    for (size_t i = 0; i < COUNT(binds); i++) {
        start(b);
        stand(b, 2, UNBOUND_SLOT);
        stand(b, 3, "0b 01 0080 00000001 00");
        serve(b, binds[i].in, binds[i].out);
        put_open(b->want, 2, binds[i].after);
        same_table(b, binds[i].in);
    }
    start(b);
    stand(b, 2, UNBOUND_SLOT);
    stand(b, 3, IDLE_SLOT);
    serve(b, "P 2 00000001 00000080 00000000 0001 0000 00000000",
          "C 2 00000004 00000080 00000007 00000018 00000000 00000000"
          " 02000000000180");
}

static void test_errors_of_connect(struct bench *b)
{
    uint8_t record[99];

    b->topic = "errors of step 5, CONNECT_REQ";
    start(b);
    stand(b, 2, IDLE_SLOT);
    error(b, "P 2 0000000d 00000006 00000000 00000001 00000000 00000000",
          BADQOSTYPE);
    error(b, "P 2 0000000d 00000007 00000018 01000000 00000000 00000000"
             " 02000000000984", BADQOSTYPE);
    error(b, "P 2 0000000d 00000006 00000018 00000000 00000000 00000000"
             " 02000000000984", BADADDR);
    error(b, "P 2 0000000d 00000008 00000018 00000000 00000000 00000000"
             " 0200000000098484", BADADDR);
    error(b, "P 2 0000000d 00000000 00000000 00000000 00000000 00000000",
          BADADDR);
    error(b, "P 2 0000000d 01000007 00000018 00000000 00000000 00000000"
             " 02000000000984", BADADDR);
    error(b, "P 2 0000000d 00000007 00000017 00000000 00000000 00000000"
             " 02000000000884", BADADDR);
    error(b, "P 2 0000000d 00000007 00000000 00000000 00000000 00000000"
             " 02000000000884", BADADDR);
    error(b, "P 2 0000000d 00000007 00000018 00000000 00000000 00000000"
             " 020000000009", BADADDR);
    error(b, "P 2 0000000d 00000007 00000018 00000000 00000000 00000000",
          BADADDR);
    error(b, "P 2 0000000d 00000007 00000018 00000000 00000000 00000000"
             " 02000000000985", BADADDR);
    error(b, "P 2 0000000d 00000007 fffffff9 00000000 00000000 00000000"
             " 02000000000984", BADADDR);
    error(b, "P 2 0000000d 00000007 fffffffa 00000000 00000000 00000000"
             " 02000000000984", BADADDR);
    error(b, "P 2 0000000d 00000007 0000005a 00000000 00000000 00000000"
             " 02000000000984", BADADDR);

    message(record, 2, 96, "0000000d 00000007 00000059 00000000 ffffffff"
                           " ffffffff");
    hex("ffffffffff fffe", record + 3 + 89);
    serve_bytes(b, record, 99, 0, "c 2 fffffffffffffe", "offset 89, L 96");
    put_open(b->want, 2, CALLING_SLOT);
    same_table(b, "offset 89, L 96");
    stand(b, 2, IDLE_SLOT);
    record[2 + 1 + 11] = 90;
    error_bytes(b, record, 99, BADADDR, "offset 90, L 96");
    serve(b, "P 2 0000000d 00000007 00000018 00000000 00000005 00000006"
             " 00000000000006", "c 2 00000000000006");
}

void run_errors(struct bench *b)
{
    test_errors_of_step_1(b);
    test_errors_of_sizes(b);
    test_longer_messages(b);
    test_errors_of_step_2(b);
    test_errors_of_attach(b);
    test_errors_of_bind(b);
    test_bound_meanwhile(b);
    test_binds_served(b);
    test_errors_of_connect(b);
}
