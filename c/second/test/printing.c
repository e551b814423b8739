/* printing.c - tests what a command prints. */
#include "printing.h"

#include <stdlib.h>
#include <string.h>

static void *present(void *pointer)
{
    if (pointer == NULL) {
        perror("selftest");
        exit(1);
    }
    return pointer;
}

FILE *new_file(void)
{
    return present(tmpfile());
}

void check_printed(struct bench *b, FILE *out, const char *wanted,
                   const char *what)
{
    size_t wanted_size = strlen(wanted);
    char *printed = present(malloc(wanted_size + 2));
    size_t printed_size;

    rewind(out);
    printed_size = fread(printed, 1, wanted_size + 1, out);
    printed[printed_size] = '\0';
    if (strcmp(printed, wanted) != 0)
        printf("wanted:\n%sprinted:\n%s", wanted, printed);
    check(b, strcmp(printed, wanted) == 0, what);
    free(printed);
    fclose(out);
}

void prints(struct bench *b, print_text *command, const uint8_t *input,
            size_t size, const char *wanted, const char *what)
{
    FILE *in = new_file();
    FILE *out = new_file();

    if (fwrite(input, 1, size, in) != size) {
        perror("selftest");
        exit(1);
    }
    rewind(in);
    check(b, command(in, out) == DONE, what);
    check_printed(b, out, wanted, what);
    fclose(in);
}

void prints_text(struct bench *b, print_text *command, const char *input,
                 const char *wanted)
{
    /* A record takes a character of the text at least, and 99 bytes at most. */
    uint8_t *bytes = present(malloc(99 * (strlen(input) + 1)));
    size_t size = parse_records(input, bytes);

    prints(b, command, bytes, size, wanted, input);
    free(bytes);
}
