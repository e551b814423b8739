/* How a command ended: its exit status. */
#ifndef HARNESS_STATUS_H
#define HARNESS_STATUS_H

/* Of several that apply, the greatest. */
enum status {
    STATUS_SERVED = 0,  /* every record was served, no number is excluded */
    STATUS_REFUSED = 1, /* some record was refused, some number is excluded */
    STATUS_FAILED = 2   /* bad usage, a file that cannot be read, what is no number, a write that failed, an answer
                           against the rules */
};

static inline enum status status_worse(enum status one, enum status other)
{
    return one > other ? one : other;
}

#endif
