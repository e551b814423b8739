/*
 * responses.c - tests the errors of steps 6 and 7, CONNECT_RES and
 * DISCONNECT_REQ, and the accepts and denials that are served.
 */
#include "bench.h"
#include "groups.h"

#define RESPONSE(number, token, qos_length) \
    "P 2 0000000f " number " " token " " qos_length " ffffffff ffffffff"

static void test_errors_of_response(struct bench *b)
{
    b->topic = "errors of step 6, CONNECT_RES";
    start(b);
    stand(b, 2, CALLED_SLOT);
    stand(b, 3, "09 01 0082 00000001 02 01 00000006");
    stand(b, 4, "00");
    stand(b, 5, UNBOUND_SLOT);
    stand(b, 6, "06 01 0084 00000002");
    stand(b, 7, "06 02 0084 00000001");
    stand(b, 8, "06 02 0084 00000002");
    stand(b, 9, "08 01 0084 00000001");
    stand(b, 10, "0b 01 0084 00000001");
    stand(b, 11, "0c 01 0084 00000001");
    stand(b, 12, "0d 01 0084 00000001");
    stand(b, 13, "0b 01 0084 00000002");
    error(b, RESPONSE("00000006", "00000099", "00000001"), BADCORR);
    error(b, RESPONSE("00000000", "00000000", "00000000"), BADCORR);
    error(b, RESPONSE("00000007", "00000000", "00000000"), BADCORR);
    error(b, RESPONSE("00000005", "00000099", "00000001"), BADQOSTYPE);
    error(b, RESPONSE("00000005", "00000000", "01000000"), BADQOSTYPE);
    error(b, RESPONSE("00000005", "0000000f", "00000000"), BADTOKEN);
    error(b, RESPONSE("00000005", "00000001", "00000000"), BADTOKEN);
    error(b, RESPONSE("00000005", "00000011", "00000000"), BADTOKEN);
    error(b, RESPONSE("00000005", "ffffffff", "00000000"), BADTOKEN);
    error(b, RESPONSE("00000005", "00000103", "00000000"), BADTOKEN);
    error(b, RESPONSE("00000005", "00000004", "00000000"), OUTSTATE);
    error(b, RESPONSE("00000005", "00000005", "00000000"), OUTSTATE);
    error(b, RESPONSE("00000005", "00000006", "00000000"), OUTSTATE);
    error(b, RESPONSE("00000005", "0000000a", "00000000"), OUTSTATE);
    error(b, RESPONSE("00000005", "0000000b", "00000000"), OUTSTATE);
    error(b, RESPONSE("00000005", "0000000c", "00000000"), OUTSTATE);
    error(b, RESPONSE("00000005", "0000000d", "00000000"), OUTSTATE);
    error(b, RESPONSE("00000005", "0000000e", "00000000"), OUTSTATE);
    error(b, RESPONSE("00000005", "00000007", "00000000"), ACCESS);
    error(b, RESPONSE("00000005", "00000008", "00000000"), ACCESS);
    error(b, RESPONSE("00000005", "00000009", "00000000"), ACCESS);

    stand(b, 2, "09 01 0080 00000001 02 02 00000005 00000008");
    error(b, RESPONSE("00000009", "00000000", "00000000"), BADCORR);
    error(b, RESPONSE("00000005", "00000000", "00000001"), BADQOSTYPE);
    error(b, RESPONSE("00000005", "00000000", "00000000"), PENDING);
    error(b, RESPONSE("00000008", "00000003", "00000000"), PENDING);
    error(b, RESPONSE("00000008", "00000099", "00000000"), BADTOKEN);
}

static void test_responses_served(struct bench *b)
{
    b->topic = "accepts";
    start(b);
    stand(b, 2, CALLED_SLOT);
    serve(b, RESPONSE("00000005", "00000003", "00000000"),
          "a 2 00000005; C 2 00000006 0000000f");
    put_open(b->want, 2, CONNECTED_SLOT);
    same_table(b, "the own token");
    refuse(b, "I 00000001 02000000000180 02000000000284", 8);

    start(b);
    stand(b, 2, CALLED_SLOT);
    stand(b, 15, "06 01 0084 00000001");
    serve(b, RESPONSE("00000005", "00000010", "00000000"),
          "a 15 00000005; C 2 00000006 0000000f");
    put_open(b->want, 2, IDLE_SLOT);
    put_open(b->want, 15, "0b 01 0084 00000001");
    same_table(b, "another stream carries the last open call");

    start(b);
    stand(b, 2, "09 01 0080 00000001 08 03 00000005 00000007 00000006");
    stand(b, 0, "06 01 0084 00000001 03");
    serve(b, RESPONSE("00000007", "00000001", "00000000"),
          "a 0 00000007; C 2 00000006 0000000f");
    put_open(b->want, 2, "09 01 0080 00000001 08 02 00000005 00000006");
    put_open(b->want, 0, "0b 01 0084 00000001 03");
    same_table(b, "a listener carries the middle one of three");
    refuse(b, "I 00000001 02000000000184 02000000000284", 8);

    start(b);
    stand(b, 2, CALLED_SLOT);
    stand(b, 3, "06 01 0080 00000001 00");
    serve(b, RESPONSE("00000005", "00000004", "00000000"),
          "a 3 00000005; C 2 00000006 0000000f");
    put_open(b->want, 2, IDLE_SLOT);
    put_open(b->want, 3, "0b 01 0080 00000001 00");
    same_table(b, "a carrier of the same SAP");
}

static void test_errors_of_disconnect(struct bench *b)
{
    b->topic = "errors of step 7, DISCONNECT_REQ";
    start(b);
    stand(b, 2, CALLED_SLOT);
    stand(b, 3, "09 01 0082 00000001 02 01 00000006");
    error(b, "P 2 00000013 00000000 00000000", BADCORR);
    error(b, "P 2 00000013 00000000 00000006", BADCORR);
    error(b, "P 2 00000013 00000000 01000005", BADCORR);
    stand(b, 2, CALLING_SLOT);
    error(b, "P 2 00000013 00000000 00000006", BADCORR);
    stand(b, 2, CONNECTED_SLOT);
    error(b, "P 2 00000013 00000000 00000001", BADCORR);
}

static void test_denials(struct bench *b)
{
    b->topic = "denials";
    start(b);
    stand(b, 2, "09 01 0080 00000001 08 03 00000005 00000007 00000006");
    serve(b, "P 2 00000013 00000abc 00000005",
          "d 2 00000005 00000abc; C 2 00000006 00000013");
    put_open(b->want, 2, "09 01 0080 00000001 08 02 00000007 00000006");
    same_table(b, "the oldest of three");
    serve(b, "P 2 00000013 ffffffff 00000006",
          "d 2 00000006 ffffffff; C 2 00000006 00000013");
    put_open(b->want, 2, "09 01 0080 00000001 08 01 00000007");
    same_table(b, "the newest of two");
    serve(b, "P 2 00000013 00000000 00000007",
          "d 2 00000007 00000000; C 2 00000006 00000013");
    put_open(b->want, 2, "06 01 0080 00000001 08");
    same_table(b, "the last");
}

void run_responses(struct bench *b)
{
    test_errors_of_response(b);
    test_responses_served(b);
    test_errors_of_disconnect(b);
    test_denials(b);
}
