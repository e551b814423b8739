/* What became of a connection indication. */
#ifndef HARNESS_FATE_H
#define HARNESS_FATE_H

/* In the order of the text's columns. */
enum fate { FATE_ACCEPTED, FATE_DENIED, FATE_WITHDRAWN, FATE_DROPPED, FATE_OPEN, FATES };

#endif
