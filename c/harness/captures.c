/* The captures that a command is given: one text for each, one behind the other. */
#include "captures.h"

/* The text goes out before the capture is closed, so that a message about its end stands behind it. */
static enum status print_file(struct text *text, const char *name, print_calls *print)
{
    struct capture capture;
    struct calls calls;
    if (!capture_open(&capture, name))
        return STATUS_FAILED;
    calls_start(&calls, &capture);
    enum status status = print(text, &calls);
    text_flush(text);
    capture_close(&capture);
    return status;
}

enum status captures_print(struct text *text, char *const *files, size_t count, print_calls *print)
{
    enum status status = STATUS_SERVED;
    if (count == 0)
        return print_file(text, "-", print);
    for (size_t i = 0; i < count && text->error == 0; i++)
        status = status_worse(status, print_file(text, files[i], print));
    return status;
}
