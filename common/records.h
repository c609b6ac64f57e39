/* The accepted records of a section: judged as they come, told where they are refused, each board and table once. */
#ifndef RECORDS_H
#define RECORDS_H

#include "input.h"
#include "status.h"
#include "tallies.h"

/* One more than the greatest table. */
enum { TABLES = 512 };

/* An accepted record and where it was read; `line` is 0 where a file has one record. */
struct accepted {
    const char *name;
    unsigned long line;
    struct bytes record;
    unsigned board, table;
    int score, counts;
    struct accepted *next;    /* the one that was taken after it */
    struct accepted *another; /* the one of the same board and table that was taken after it */
    struct accepted *last;    /* the last of them, known to the first */
};

struct records {
    struct accepted *first, **end;
    struct accepted *at[BOARDS][TABLES]; /* the first of each board and table */
    unsigned long left_out;              /* records that were refused, could not be read, or stand beside a different one of their board and table */
};

/* No records, in memory of their own; null where there is none, which is then said. */
struct records *new_records(void);
void free_records(struct records *records);

/* Judges a record. An accepted one is kept, and its bytes are the records' from then on; of a refused one it is said on standard error why. The name has to
 * stay as long as the records. */
enum status take_record(struct records *records, const char *name, unsigned long line, struct bytes *record);

/* Leaves a record out that cannot be read, and says why on standard error. */
enum status leave_unread(struct records *records, const char *name, unsigned long line, const char *why);

/* Judges the record of a file, or those of a stream, one a line in hexadecimal. What cannot be read is said on standard error. */
enum status take_file(struct records *records, const char *name);
enum status take_lines(struct records *records, FILE *file, const char *name);

/* Which lines are taken, where several programs share the lines of a stream. `takes` is asked once of each line in turn, also of one with nothing but blanks;
 * `record` is null for a line that has none. A line for which there is no memory is told whosever it is. */
struct choice {
    int (*takes)(void *with, const struct bytes *record);
    void *with;
};

/* The same of the lines that are chosen, all where the choice is null. A stream that cannot be read to its end is left to the caller, by ferror. */
enum status take_chosen_lines(struct records *records, FILE *file, const char *name, const struct choice *choice);

/* Finds the records of one board and table, and says so: the same bytes count once, different ones do not count at all. */
enum status settle(struct records *records);

/* Adds the result of each record that counts to its board's tally, in the order in which they were taken, and says what is refused. */
enum status add_results(const struct records *records, struct tallies *tallies);

#endif
