/* The numbers of the rule paper, besides those of the layout. */
#ifndef GENERATE_PROTOCOL_H
#define GENERATE_PROTOCOL_H

#include "../layout.h"

/* States of a stream, by the numbers of the paper. */
enum {
    UNATTACHED = 0,
    UNBOUND = 3,
    IDLE = 6,
    CALLING = 8,
    RINGING = 9, /* has open indications */
    CONNECTED = 11,
    USER_RESET = 12,
    PEER_RESET = 13,
    STATES = 14 /* one past the highest number */
};

/* A set of states has one bit for each state's number. */
#define STATE(number) (1u << (number))
#define UP_STATES (STATE(CONNECTED) | STATE(USER_RESET) | STATE(PEER_RESET))
#define ALL_STATES (STATE(UNATTACHED) | STATE(UNBOUND) | STATE(IDLE) | STATE(CALLING) | STATE(RINGING) | UP_STATES)

enum {
    MODE_CONNECTION = 1,
    MODE_CONNECTIONLESS = 2
};

/* SAPs are even numbers under 256, save the reserved one; Ethernet types begin at TYPE_FIRST. */
enum {
    SAP_END = 0x100,
    SAP_RESERVED = 0x06,
    TYPE_FIRST = 0x600,
    TYPE_LAST = 0xffff
};

/* Codes of the requests that are served, and one past all that DLPI's requests and replies have here. */
enum {
    INFO_REQ = 0x00,
    BIND_REQ = 0x01,
    UNBIND_REQ = 0x02,
    UNITDATA_REQ = 0x07,
    ATTACH_REQ = 0x0b,
    DETACH_REQ = 0x0c,
    CONNECT_REQ = 0x0d,
    CONNECT_RES = 0x0f,
    TOKEN_REQ = 0x11,
    DISCONNECT_REQ = 0x13,
    RESET_REQ = 0x17,
    RESET_RES = 0x19,
    SMALL_CODES = 0x22
};

/* Offsets of fields in the block of a message. */
enum {
    AT_CODE = 0,
    AT_ATTACH_PPA = 4,
    AT_BIND_SAP = 4,
    AT_BIND_MAX_CONIND = 8,
    AT_BIND_MODE = 12,
    AT_BIND_CONN_MGMT = 14,
    AT_BIND_XIDTEST = 16,
    AT_ADDRESS_LENGTH = 4, /* in CONNECT_REQ and UNITDATA_REQ */
    AT_ADDRESS_OFFSET = 8,
    AT_DATAGRAM_PRIORITY = 12, /* two fields */
    AT_CONNECT_QOS_LENGTH = 12,
    AT_CONNECT_QOS_OFFSET = 16,
    AT_CONNECT_GROWTH = 20,
    AT_ACCEPT_NUMBER = 4,
    AT_ACCEPT_TOKEN = 8,
    AT_ACCEPT_QOS_LENGTH = 12,
    AT_ACCEPT_QOS_OFFSET = 16,
    AT_ACCEPT_GROWTH = 20,
    AT_DISCONNECT_REASON = 4,
    AT_DISCONNECT_NUMBER = 8
};

/* The least L of a complete message. */
enum {
    CODE_SIZE = 4, /* of a message without fields, too */
    ATTACH_SIZE = 8,
    BIND_SIZE = 20,
    DATAGRAM_SIZE = 20,
    CONNECT_SIZE = 24,
    ACCEPT_SIZE = 24,
    DISCONNECT_SIZE = 12
};

#endif
