/* Messages to the user, on standard error. */
#ifndef HARNESS_MESSAGE_H
#define HARNESS_MESSAGE_H

/* Prints one line behind the program's name. The format has no newline at its end. */
__attribute__((format(printf, 1, 2)))
void message(const char *format, ...);

#endif
