#define _XOPEN_SOURCE 700

#include "output.h"

#include <errno.h>
#include <stdlib.h>
#include <string.h>
#include <sys/stat.h>
#include <unistd.h>

static int is_standard(const char *name) { return strcmp(name, "-") == 0; }

int is_same_file(const char *input, const char *output) {
    struct stat in, out;
    int known = is_standard(input) ? fstat(STDIN_FILENO, &in) : stat(input, &in);
    if (known != 0 || is_standard(output) || stat(output, &out) != 0) return 0;
    return S_ISREG(in.st_mode) && in.st_dev == out.st_dev && in.st_ino == out.st_ino;
}

/* A copy of a name with some letters behind it; null where there is no memory. */
static char *joined(const char *name, const char *behind) {
    size_t length = strlen(name), more = strlen(behind) + 1;
    char *words = malloc(length + more);
    if (!words) return NULL;
    memcpy(words, name, length);
    memcpy(words + length, behind, more);
    return words;
}

/* The permissions that a file has, or that one gets that is made. */
static mode_t permissions(const struct stat *known) {
    if (known) return known->st_mode & 07777;
    mode_t mask = umask(0);
    umask(mask);
    return 0666 & ~mask;
}

/* Opens a file beside the target, with its permissions. */
static int open_beside(struct output *output, const struct stat *known) {
    output->beside = joined(output->target, ".XXXXXX");
    int number = output->beside ? mkstemp(output->beside) : -1;
    if (number < 0) return 0;
    output->file = fchmod(number, permissions(known)) == 0 ? fdopen(number, "wb") : NULL;
    if (output->file) return 1;
    close(number);
    unlink(output->beside);
    return 0;
}

static void forget(struct output *output) {
    free(output->target);
    free(output->beside);
    output->target = output->beside = NULL;
    output->file = NULL;
}

int open_output(struct output *output, const char *name) {
    struct stat known;
    int opened, exists = !is_standard(name) && stat(name, &known) == 0;
    memset(output, 0, sizeof *output);
    output->name = name;
    if (is_standard(name) || (exists && !S_ISREG(known.st_mode))) {
        output->file = is_standard(name) ? stdout : fopen(name, "wb");
        return output->file != NULL;
    }
    if (exists ? access(name, W_OK) != 0 : errno != ENOENT) return 0;
    output->target = exists ? realpath(name, NULL) : joined(name, "");
    opened = output->target && open_beside(output, exists ? &known : NULL);
    if (!opened) forget(output);
    return opened;
}

int close_output(struct output *output) {
    int whole = fflush(output->file) == 0 && !ferror(output->file);
    if (output->target && fsync(fileno(output->file)) != 0) whole = 0;
    if (output->file != stdout && fclose(output->file) != 0) whole = 0;
    if (output->target && whole) whole = rename(output->beside, output->target) == 0;
    if (output->target && !whole) unlink(output->beside);
    forget(output);
    return whole;
}
