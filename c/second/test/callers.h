/*
 * callers.h - the records with which calls ring in and end, as bench.h writes
 * them. Numbers and tokens are given by their last hex digit.
 */
#ifndef CALLERS_H
#define CALLERS_H

#define ADD_PPA_1 "G 00000001 020000000001;"

/* Stream s, once opened, is bound to the SAP of PPA 1 in mode 1. */
#define BIND(s, sap, granted)                                 \
    "P " s " 0000000b 00000001;"                              \
    "P " s " 00000001 000000" sap " 0000000" granted          \
    " 0001 0000 00000000;"

#define RING(sap) "I 00000001 020000000001" sap " 02000000000284;"

#define ACCEPT_ON(s, number, token)                           \
    "P " s " 0000000f 0000000" number " 0000000" token        \
    " 00000000 00000000 00000000;"

#define DENY(s, number) "P " s " 00000013 00000003 0000000" number ";"

#define WITHDRAW(s, number) "W " s " 0000000" number " 00000005;"

#endif
