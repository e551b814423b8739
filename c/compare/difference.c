/* Printing a difference, and writing the files of it. */
#include "difference.h"

#include <inttypes.h>
#include <stdio.h>
#include <string.h>

enum { LONGEST_PATH = 4096 };

/* --- Printing */

/* What the call read, or all that was lent where that is no whole record or may be the beginning of a datagram's M. */
static size_t telling_size(const struct difference *difference)
{
    const struct lending *lending = difference->lending;
    size_t size = record_size_of_call(lending->record, lending->record_size);
    if (size != 0 && !record_wants_data(lending->record))
        return size;
    return lending->record_size < LONGEST_CALL ? lending->record_size : LONGEST_CALL;
}

static void print_record(const struct difference *difference)
{
    printf("  record   ");
    for (size_t i = 0; i < telling_size(difference); i++)
        printf("%02x", difference->lending->record[i]);
    printf("\n");
}

static void print_outcome(const struct provider *provider, const struct outcome *outcome)
{
    printf("  %-8s %08" PRIx32 ": refusal %" PRIu32 ", %" PRIu32 " bytes, token %" PRIu32 "; record of %" PRIu32 "\n",
           provider->name, outcome->answer, KUNGTHEVI_REFUSAL(outcome->answer), KUNGTHEVI_WRITTEN(outcome->answer),
           KUNGTHEVI_TOKEN(outcome->answer), outcome->record_size);
}

static void print_first_byte(const char *run, const uint8_t *lent, const uint8_t *library, const uint8_t *second,
                             size_t size)
{
    size_t i = 0;
    while (i < size && library[i] == second[i])
        i++;
    if (i < size)
        printf("  %-8s byte %zu of %zu: library %02x, second %02x, lent as %02x\n", run, i, size, library[i],
               second[i], lent[i]);
}

void difference_print(const struct difference *difference)
{
    const struct lending *lending = difference->lending;
    const struct outcome *library = &difference->outcomes[LIBRARY];
    const struct outcome *second = &difference->outcomes[SECOND];
    printf("seed %" PRIu64 ", form %u, call %" PRIu64 ": %s %s\n", difference->seed, difference->form,
           difference->call, difference->verdict.who, difference->verdict.what);
    print_record(difference);
    printf("  lent     table of %zu, record and what follows %zu, room of %zu\n", lending->table_size,
           lending->record_size, lending->room_size);
    print_outcome(&providers[LIBRARY], library);
    print_outcome(&providers[SECOND], second);
    print_first_byte("table", lending->table, library->table, second->table, lending->table_size);
    print_first_byte("room", lending->room, library->room, second->room, lending->room_size);
}

/* --- Keeping */

static bool write_bytes(FILE *file, const uint8_t *bytes, size_t size)
{
    return fwrite(bytes, 1, size, file) == size;
}

/* Writes two runs behind one another, and tells where. */
static void write_file(const char *path, const uint8_t *first, size_t first_size, const uint8_t *then, size_t then_size)
{
    FILE *file = fopen(path, "wb");
    if (file == NULL) {
        perror(path);
        return;
    }
    bool written = write_bytes(file, first, first_size) && write_bytes(file, then, then_size);
    if (fclose(file) != 0 || !written)
        perror(path);
    else
        printf("  written  %s\n", path);
}

void difference_keep(const struct difference *difference, const char *directory)
{
    static const char table_ending[] = ".table";
    char path[LONGEST_PATH];
    const struct lending *lending = difference->lending;
    int length = snprintf(path, sizeof path, "%s/compare-%" PRIu64 "-%u.capture", directory, difference->seed,
                          difference->form);
    if (length < 0 || (size_t)length + sizeof table_ending > sizeof path) {
        fprintf(stderr, "compare: the name of the directory is too long\n");
        return;
    }
    write_file(path, difference->capture->bytes, difference->before, lending->record, telling_size(difference));
    if (difference->unlike_replay == NULL)
        return;
    printf("  replay   does not repeat this call: %s\n", difference->unlike_replay);
    memcpy(path + length, table_ending, sizeof table_ending);
    write_file(path, lending->table, lending->table_size, lending->table, 0);
}
