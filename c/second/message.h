/* message.h - message codes, error codes and the messages up. */
#ifndef MESSAGE_H
#define MESSAGE_H

#include <stdint.h>

#include "record.h"
#include "sap.h"
#include "table.h"

enum message_code {
    INFO_REQ = 0x00,
    BIND_REQ = 0x01,
    UNBIND_REQ = 0x02,
    INFO_ACK = 0x03,
    BIND_ACK = 0x04,
    ERROR_ACK = 0x05,
    OK_ACK = 0x06,
    UNITDATA_REQ = 0x07,
    UNITDATA_IND = 0x08,
    UDERROR_IND = 0x09,
    ATTACH_REQ = 0x0b,
    DETACH_REQ = 0x0c,
    CONNECT_REQ = 0x0d,
    CONNECT_IND = 0x0e,
    CONNECT_RES = 0x0f,
    CONNECT_CON = 0x10,
    TOKEN_REQ = 0x11,
    TOKEN_ACK = 0x12,
    DISCONNECT_REQ = 0x13,
    DISCONNECT_IND = 0x14,
    RESET_REQ = 0x17,
    RESET_IND = 0x18,
    RESET_RES = 0x19,
    RESET_CON = 0x1a
};

enum dl_error {
    NO_ERROR = 0,
    BADADDR = 1,
    ACCESS = 2,
    OUTSTATE = 3,
    BADCORR = 5,
    UNSUPPORTED = 7,
    BADPPA = 8,
    BADPRIM = 9,
    BADQOSTYPE = 0x0b,
    BADTOKEN = 0x0c,
    BOUND = 0x0d,
    NOTSUPPORTED = 0x12,
    NOAUTO = 0x16,
    PENDING = 0x1b
};

/* Each of these sends one message up to stream s. */
void second_send_info_ack(struct outcome *outcome, const struct table *table,
                          unsigned s);
void second_send_bind_ack(struct outcome *outcome, const struct table *table,
                          unsigned s);
void second_send_error_ack(struct outcome *outcome, unsigned s,
                           uint32_t request_code, enum dl_error error);
void second_send_ok_ack(struct outcome *outcome, unsigned s,
                        uint32_t request_code);
void second_send_connect_ind(struct outcome *outcome, unsigned s,
                             struct correlation number,
                             const uint8_t called[PEER_ADDRESS_SIZE],
                             const uint8_t calling[PEER_ADDRESS_SIZE]);
void second_send_connect_con(struct outcome *outcome, unsigned s,
                             const uint8_t address[PEER_ADDRESS_SIZE]);
void second_send_token_ack(struct outcome *outcome, unsigned s);
void second_send_disconnect_ind(struct outcome *outcome, unsigned s,
                                uint32_t reason, struct correlation number);
void second_send_reset_ind(struct outcome *outcome, unsigned s,
                           uint32_t reason);
void second_send_reset_con(struct outcome *outcome, unsigned s);

/* The two addresses have one length. */
void second_send_unitdata_ind(struct outcome *outcome, unsigned s,
                              const uint8_t *called, const uint8_t *calling,
                              size_t address_length);
void second_send_uderror_ind(struct outcome *outcome, unsigned s,
                             enum dl_error error);

#endif
