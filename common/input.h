/* Bytes read from a file or from standard input: as they are, or from hexadecimal digits. */
#ifndef INPUT_H
#define INPUT_H

#include <stddef.h>
#include <stdint.h>
#include <stdio.h>

struct bytes {
    uint8_t *at; /* never null once read; the caller frees it */
    size_t length;
    size_t room;
};

/* What is said where there is no memory, and where opening and reading fail. */
extern const char NO_MEMORY[];
extern const char NOT_OPENED[];
extern const char NOT_READ_WHOLE[];

/* Puts a byte at the end; false where there is no memory for it. */
int put_byte(struct bytes *bytes, int byte);

/* How a file is read: as bytes; as two hexadecimal digits a byte, with blanks and newlines between bytes, and comments from # to the line's end; or as
 * hexadecimal where its name ends in .hex, and as bytes where it does not. */
enum form { BY_NAME, BINARY, HEX };

/* What to call a file in a sentence; - is standard input. */
const char *shown_name(const char *name);

/* Opens a file, or takes standard input; null where it cannot be opened, which is then said on standard error. */
FILE *open_input(const char *name);
void close_input(FILE *file);

/* Reads a whole file. False where it cannot be read, which is then said on standard error; the caller frees the bytes in either case. */
int read_input(const char *name, enum form form, struct bytes *bytes);

/* Reads one line of hexadecimal digits: a record; nothing but blanks and a comment; no line, at the end or where reading fails, which ferror tells; or a line
 * that is not hexadecimal, and why. The caller frees the record in each case. */
enum line_read { LINE_RECORD, LINE_BLANK, LINE_NONE, LINE_BAD };
enum line_read read_hex_line(FILE *file, struct bytes *record, const char **fault);

#endif
