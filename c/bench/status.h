/* How the bench ends; also its exit status. */
#ifndef BENCH_STATUS_H
#define BENCH_STATUS_H

enum status {
    ALIKE = 0,     /* all gave the same answers */
    DIFFERENT = 1, /* two gave different answers */
    NOT_RUN = 2    /* a program or a file was not to be had */
};

#endif
