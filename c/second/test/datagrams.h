/*
 * datagrams.h - datagrams and frames, as bench.h writes them. PPA 1 has MAC
 * 020000000001. In a datagram the address stands at offset 20.
 */
#ifndef DATAGRAMS_H
#define DATAGRAMS_H

/* Stream s, once opened, is bound to the SAP or type of PPA 1 in mode 2. */
#define BOARD(s, sap)                                         \
    "P " s " 0000000b 00000001;"                              \
    "P " s " 00000001 0000" sap " 00000000 0002 0000 00000000;"

/* From stream 2, to an address of either form. */
#define TO_SAP(sap) \
    "P 2 00000007 00000007 00000014 00000000 00000000 020000000002" sap ";"
#define TO_TYPE(type) \
    "P 2 00000007 00000008 00000014 00000000 00000000 020000000002" type ";"
#define DATA_OF_2 "M 2 6869;"

/* To SAP 0x80 and to type 0x0800 of PPA 1, with data 7570. */
#define SAP_FRAME "f 00000001 07 0200000000018000 0200000000028400 02 7570;"
#define TYPE_FRAME "f 00000001 08 0200000000010800 0200000000028137 02 7570;"

#endif
