/* What every program does: options, help, version, and an output that was written. */
#ifndef PROGRAM_H
#define PROGRAM_H

#include "status.h"

struct program {
    const char *usage;   /* several lines */
    const char *version; /* one line */
};

/* The words that a program was called with, and how far its options were read. */
struct options {
    int count;
    char **words;
    int next;           /* the first word that is not read yet; behind the options, the first operand */
    const char *letter; /* within a word of several options, the next one */
};

enum { OPTIONS_END = 0, OPTION_WRONG = '?', OPTION_HELP = 'h', OPTION_VERSION = 'V' };

/* The next option: a letter of `known`, or one of the above; `--` ends the options, and - alone is an operand. A letter with a colon behind it in `known` takes
 * an argument, the rest of its word or the next word. */
int next_option(struct options *options, const char *known, const char **argument);

/* What --help and --version print, on standard output, and what is said of words that cannot be understood; the exit status. */
enum status print_help(const struct program *program);
enum status print_version(const struct program *program);
enum status print_usage(const struct program *program);

/* The exit status: the worst of all, and NOT_READ where what was printed could not be written, which is then said. */
enum status finish(enum status worst);

#endif
