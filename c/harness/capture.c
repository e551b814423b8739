/* A capture being read: records right behind one another, from a file or from standard input, of any length. */
#define _POSIX_C_SOURCE 200809L
#include "capture.h"

#include <errno.h>
#include <fcntl.h>
#include <inttypes.h>
#include <string.h>
#include <unistd.h>

#include "../kungthevi.h"
#include "../layout.h"
#include "message.h"

static uint64_t bytes_read(const struct capture *capture)
{
    return capture->place + capture->lent;
}

static void read_on(struct capture *capture)
{
    ssize_t count = read(capture->file, capture->buffer + capture->lent, sizeof capture->buffer - capture->lent);
    if (count < 0 && errno == EINTR)
        return;
    if (count <= 0) {
        capture->ended = true;
        capture->error = count < 0 ? errno : 0;
        return;
    }
    capture->lent += (size_t)count;
    progress_at(&capture->progress, bytes_read(capture));
}

/* Has all lent that a call may read, unless the capture ends before. A pipe may give its bytes in small parts. */
static void fill(struct capture *capture)
{
    if (capture->lent >= LONGEST_CALL || capture->ended)
        return;
    memmove(capture->buffer, capture->record, capture->lent);
    capture->record = capture->buffer;
    while (capture->lent < LONGEST_CALL && !capture->ended)
        read_on(capture);
}

static void explain_failed_read(const struct capture *capture)
{
    message("%s: byte %" PRIu64 ": cannot read: %s", capture->name, bytes_read(capture), strerror(capture->error));
}

/* Standard input too: naming it twice is an error, and not a second capture that has no records. */
static void close_file(struct capture *capture)
{
    progress_end(&capture->progress);
    close(capture->file);
}

/* The first bytes are read here: a directory opens like a file and fails only then. */
bool capture_open(struct capture *capture, const char *name)
{
    bool standard = strcmp(name, "-") == 0;
    *capture = (struct capture){ .name = standard ? "standard input" : name, .record = capture->buffer };
    capture->file = standard ? STDIN_FILENO : open(name, O_RDONLY);
    if (capture->file < 0) {
        message("%s: cannot open: %s", name, strerror(errno));
        return false;
    }
    progress_start(&capture->progress, capture->file);
    fill(capture);
    if (capture->error == 0 || capture->lent > 0)
        return true;
    close_file(capture);
    explain_failed_read(capture);
    return false;
}

/* Whether reading ends at the record read last, as its kind is unknown or its body cut. */
static bool reading_ends(const struct capture *capture)
{
    return capture->number > 0 && capture->lent > 0 && capture->size == 0;
}

/* Whether bytes behind those lent may belong to the record: the rest of its body, or of the M behind a datagram. */
static bool is_unfinished(const struct capture *capture)
{
    uint8_t call[LONGEST_CALL] = { 0 };
    if (capture->lent >= sizeof call)
        return false;
    call[LONGEST_RECORD + AT_KIND] = 'M';
    call[LONGEST_RECORD + AT_STREAM] = capture->record[AT_STREAM];
    memcpy(call, capture->record, capture->lent);
    return kungthevi_record_size(call, sizeof call) > capture->lent;
}

/* A record that is not whole where a read failed is not known to be cut: it is no record of the capture's. */
bool capture_next(struct capture *capture)
{
    if (reading_ends(capture))
        return false;
    capture->record += capture->size;
    capture->lent -= capture->size;
    capture->place += capture->size;
    fill(capture);
    capture->size = kungthevi_record_size(capture->record, capture->lent);
    if (capture->lent == 0 || (capture->error != 0 && is_unfinished(capture)))
        return false;
    capture->number++;
    return true;
}

/* The size of a whole record of the kind, or 0 for an unknown kind. */
static size_t size_of_kind(uint8_t kind)
{
    const uint8_t whole[LONGEST_RECORD] = { kind };
    return kungthevi_record_size(whole, sizeof whole);
}

static void explain_early_end(const struct capture *capture)
{
    uint8_t kind = capture->record[0];
    size_t whole = size_of_kind(kind);
    if (whole == 0)
        message("%s: byte %" PRIu64 ", record %" PRIu64 ": unknown kind 0x%02x: reading ends here", capture->name,
                capture->place, capture->number, kind);
    else
        message("%s: byte %" PRIu64 ", record %" PRIu64 ": record cut: has %zu of %zu bytes: reading ends here",
                capture->name, capture->place, capture->number, capture->lent, whole);
}

void capture_close(struct capture *capture)
{
    close_file(capture);
    if (capture->error != 0)
        explain_failed_read(capture);
    else if (reading_ends(capture))
        explain_early_end(capture);
}
