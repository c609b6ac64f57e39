/* A file that is written whole or stays as it was. */
#ifndef OUTPUT_H
#define OUTPUT_H

#include <stdio.h>

struct output {
    const char *name; /* - is standard output */
    char *target;     /* the file that is replaced, behind symbolic links; null where it is written to directly */
    char *beside;     /* the file that becomes it */
    FILE *file;
};

/* Whether two names are of one file; standard input counts where `input` is -. */
int is_same_file(const char *input, const char *output);

/* Opens a file beside the one of that name. A name that stands for no regular file, such as a pipe, is opened itself. False where it cannot be. */
int open_output(struct output *output, const char *name);

/* Closes it, and puts it in the place of the other where all was written; false where it was not, and then the other is as it was. */
int close_output(struct output *output);

#endif
