/* kungthevi: which command the user asks for, and what it says of itself. */
#define _POSIX_C_SOURCE 200809L
#include <signal.h>
#include <stdbool.h>
#include <stddef.h>
#include <string.h>
#include <unistd.h>

#include "fates.h"
#include "message.h"
#include "replay.h"
#include "sap.h"
#include "status.h"
#include "text.h"

static const char help[] =
    "usage: kungthevi replay [FILE..]\n"
    "       kungthevi fates [FILE..]\n"
    "       kungthevi sap NUMBER..\n"
    "       kungthevi --help\n"
    "\n"
    "Answers the calls of a capture as a correct DLPI provider does, and tells which numbers a\n"
    "bind can take. The answers come from a library that is proved to follow the rule paper.\n"
    "\n"
    "A capture holds the rule paper's input records right behind one another. Each FILE is a\n"
    "capture of its own; without one, or where it is -, the capture is standard input.\n"
    "\n"
    "kungthevi replay [FILE..]\n"
    "  Makes one call for each record, from a fresh table. A message of code 0x07, a datagram,\n"
    "  and the M right behind it, its data, are one record here. Prints\n"
    "\n"
    "    dlpi replay              at the beginning\n"
    "    1 ok                     call 1 was served and wrote no record\n"
    "    2 open 0                 call 2 opened stream 0\n"
    "    3 C 0 000000060000000b   call 3 wrote this record: kind, stream, then its fields in hex;\n"
    "                             a call that wrote several has a line for each\n"
    "    4 refused 2              call 4 was refused, for the reason of that number\n"
    "    4 records, 1 refused     at the end\n"
    "\n"
    "  A call is refused for these reasons:\n"
    "     2  the stream is over 15 or not open\n"
    "     3  all 16 streams are open already\n"
    "     4  a message with L under 4\n"
    "     5  a message with L over 96, or data over 64 of a datagram or an f\n"
    "     6  A, D, R or S in a state that has no row for it, or W whose number is not open there\n"
    "     7  I for an unknown PPA or another MAC, or nobody listens; f for an unknown PPA\n"
    "     8  I for a listener that is busy or has its granted count open\n"
    "     9  G after any opening, a ninth PPA, or a number already there\n"
    "    10  no record: bytes past a length that are not zero, a datagram without its M, an M by\n"
    "        itself, an f whose address length is not 7 or 8, an unknown kind or a cut body. The\n"
    "        last two end the reading; standard error says at which byte (from 0) and record\n"
    "        (from 1).\n"
    "\n"
    "kungthevi fates [FILE..]\n"
    "  Makes the same calls, and prints what became of each connection indication that was\n"
    "  written to a stream: words and numbers between blanks, as a sheet takes them.\n"
    "\n"
    "    dlpi fates               at the beginning\n"
    "    call 0 1 2 7 accepted    stream 0, its opening 1, the opening's call 2, with correlation\n"
    "                             number 7; or denied, withdrawn, dropped (at close), open\n"
    "    opening 0 1 5 1 1 1 2 0  stream 0, its opening 1, its calls, and how many of them were\n"
    "                             accepted, denied, withdrawn, dropped and are open\n"
    "    total 2 5 1 1 1 2 0      openings, and the same counts over all of them: at the end\n"
    "\n"
    "  The line of a call comes when it ends, that of an opening when its stream is opened again\n"
    "  or the capture ends; the calls still open come then too, before their opening.\n"
    "\n"
    "kungthevi sap NUMBER..\n"
    "  Prints of each NUMBER, in decimal or behind 0x in hex, what it is in the SAP field of a bind.\n"
    "\n"
    "    0x80 SAP                 a bind can take it; a datagram's address can end in it, in one byte\n"
    "    0x0800 type              likewise, in two bytes, but no bind in mode 1\n"
    "    0x06 excluded: reserved, by RFC 1010 (manual, 'Reserved IEEESAPS/Ethertypes')\n"
    "                             neither can: why, and the section of the maker's manual\n"
    "\n"
    "Several FILEs print one text behind the other, in their order. A FILE that cannot be read\n"
    "prints no text, one that cannot be read to its end no last line, and of fates no line of\n"
    "what is still open; the others are printed all the same.\n"
    "\n"
    "Exit status\n"
    "  0  every record was served, no NUMBER is excluded\n"
    "  1  some record was refused, some NUMBER is excluded\n"
    "  2  bad usage, a FILE that cannot be read, a NUMBER that is none, output that cannot be\n"
    "     written, or an answer that breaks the rule paper\n"
    "\n"
    "Where standard error is a terminal and standard output is not, it shows how far the reading\n"
    "of a capture over 4 MB has come.\n";

struct command {
    const char *name;
    enum status (*run)(struct text *text, char *const *words, size_t count);
};

static const struct command commands[] = {
    { "replay", replay },
    { "fates", fates },
    { "sap", sap },
};

static const struct command *command_of_name(const char *name)
{
    for (size_t i = 0; i < sizeof commands / sizeof commands[0]; i++)
        if (strcmp(commands[i].name, name) == 0)
            return &commands[i];
    return NULL;
}

static bool asks_for_help(const char *word)
{
    return strcmp(word, "--help") == 0 || strcmp(word, "-h") == 0;
}

static bool is_option(const char *word)
{
    return word[0] == '-' && word[1] != '\0';
}

static enum status print_help(struct text *text)
{
    text_words(text, help);
    return STATUS_SERVED;
}

static enum status bad_usage(const char *what, const char *word)
{
    message("%s%s; 'kungthevi --help' says what there is", what, word);
    return STATUS_FAILED;
}

/* Options may stand anywhere before "--"; behind it each word is a file, or a number. */
static enum status run_command(struct text *text, const struct command *command, char **words, size_t count)
{
    size_t kept = 0;
    bool options = true;
    for (size_t i = 0; i < count; i++) {
        if (options && asks_for_help(words[i]))
            return print_help(text);
        if (options && strcmp(words[i], "--") == 0)
            options = false;
        else if (options && is_option(words[i]))
            return bad_usage("unknown option ", words[i]);
        else
            words[kept++] = words[i];
    }
    return command->run(text, words, kept);
}

static enum status run(struct text *text, int argc, char **argv)
{
    if (argc < 2)
        return bad_usage("no command", "");
    if (asks_for_help(argv[1]) || strcmp(argv[1], "help") == 0)
        return print_help(text);
    const struct command *command = command_of_name(argv[1]);
    if (command == NULL)
        return bad_usage(is_option(argv[1]) ? "unknown option " : "unknown command ", argv[1]);
    return run_command(text, command, argv + 2, (size_t)argc - 2);
}

/* A reader that leaves early is a write that fails, not a signal that ends the program: the exit status is to tell. */
int main(int argc, char **argv)
{
    struct text text;
    signal(SIGPIPE, SIG_IGN);
    text_start(&text, STDOUT_FILENO);
    enum status status = run(&text, argc, argv);
    return (int)(text_end(&text) ? status : STATUS_FAILED);
}
