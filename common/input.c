#include "input.h"

#include <stdlib.h>
#include <string.h>

enum { FIRST_ROOM = 512 };

const char NO_MEMORY[] = "no memory for what is read";
const char NOT_OPENED[] = "cannot be opened";
const char NOT_READ_WHOLE[] = "cannot be read to its end";
static const char NOT_HEX[] = "is not hexadecimal, two digits a byte";

static int is_standard(const char *name) { return strcmp(name, "-") == 0; }

const char *shown_name(const char *name) { return is_standard(name) ? "standard input" : name; }

FILE *open_input(const char *name) {
    FILE *file = is_standard(name) ? stdin : fopen(name, "rb");
    if (!file) fprintf(stderr, "%s %s\n", name, NOT_OPENED);
    return file;
}

void close_input(FILE *file) {
    if (file != stdin) fclose(file);
}

/* Makes room for a byte more, also for the first. */
static int has_room(struct bytes *bytes) {
    if (bytes->length < bytes->room) return 1;
    size_t more = bytes->room ? 2 * bytes->room : FIRST_ROOM;
    uint8_t *at = more > bytes->room ? realloc(bytes->at, more) : NULL;
    if (!at) return 0;
    bytes->at = at;
    bytes->room = more;
    return 1;
}

int put_byte(struct bytes *bytes, int byte) {
    if (!has_room(bytes)) return 0;
    bytes->at[bytes->length++] = (uint8_t)byte;
    return 1;
}

static const char *read_binary(FILE *file, struct bytes *bytes) {
    for (int c = getc(file); c != EOF; c = getc(file))
        if (!put_byte(bytes, c)) return NO_MEMORY;
    return NULL;
}

static int digit(int c) {
    if (c >= '0' && c <= '9') return c - '0';
    if (c >= 'a' && c <= 'f') return c - 'a' + 10;
    if (c >= 'A' && c <= 'F') return c - 'A' + 10;
    return -1;
}

static int is_end(int c) { return c == '\n' || c == EOF; }

/* The end of a line, from its character `c` on: the newline or the end of the file. */
static int line_end(FILE *file, int c) {
    while (!is_end(c)) c = getc(file);
    return c;
}

/* The next character of a line that is neither blank nor in a comment. */
static int next_in_line(FILE *file) {
    int c = getc(file);
    while (c == ' ' || c == '\t' || c == '\r') c = getc(file);
    return c == '#' ? line_end(file, c) : c;
}

/* Puts the bytes of one line behind those that are there. Gives 0, or a sentence that says why not; `end` is the newline or the end behind the line. */
static const char *put_hex_line(FILE *file, struct bytes *bytes, int *end) {
    int c = next_in_line(file);
    for (; !is_end(c); c = next_in_line(file)) {
        int high = digit(c), second = high < 0 ? c : getc(file), low = high < 0 ? -1 : digit(second);
        const char *fault = low < 0 ? NOT_HEX : put_byte(bytes, 16 * high + low) ? NULL : NO_MEMORY;
        if (!fault) continue;
        *end = line_end(file, second);
        return fault;
    }
    *end = c;
    return NULL;
}

static const char *read_hex(FILE *file, struct bytes *bytes) {
    const char *fault = NULL;
    for (int end = '\n'; end != EOF && !fault;) fault = put_hex_line(file, bytes, &end);
    return fault;
}

static int ends_in_hex(const char *name) {
    static const char ENDING[] = ".hex";
    size_t length = strlen(name), ending = sizeof ENDING - 1;
    return length >= ending && strcmp(name + length - ending, ENDING) == 0;
}

int read_input(const char *name, enum form form, struct bytes *bytes) {
    FILE *file = open_input(name);
    memset(bytes, 0, sizeof *bytes);
    if (!file) return 0;
    int hex = form == HEX || (form == BY_NAME && ends_in_hex(name));
    const char *fault = !has_room(bytes) ? NO_MEMORY : hex ? read_hex(file, bytes) : read_binary(file, bytes);
    if (ferror(file)) fault = NOT_READ_WHOLE;
    if (fault) fprintf(stderr, "%s %s\n", shown_name(name), fault);
    close_input(file);
    return fault == NULL;
}

enum line_read read_hex_line(FILE *file, struct bytes *record, const char **fault) {
    int end = EOF;
    memset(record, 0, sizeof *record);
    *fault = has_room(record) ? put_hex_line(file, record, &end) : NO_MEMORY;
    if (ferror(file)) return LINE_NONE;
    if (*fault) return LINE_BAD;
    if (record->length > 0) return LINE_RECORD;
    return end == EOF ? LINE_NONE : LINE_BLANK;
}
