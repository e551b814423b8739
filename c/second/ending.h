/* ending.h - how the printing of a text ends. */
#ifndef ENDING_H
#define ENDING_H

/* A text that ended where something failed has no last line. Of several the last named decides. */
enum ending {
    DONE,
    SOME_EXCLUDED, /* of the numbers asked about */
    NO_NUMBER,     /* something asked about is none, or nothing is asked */
    READING_FAILED,
    WRITING_FAILED,
    PROVIDER_FAILED /* it wrote what the text has no place for */
};

#endif
