/* What the work of a rank of standings-mpi costs, in processor time: lines of a file that are skipped, lines that are judged and kept, results added, and 127
 * tallies merged; the least of some turns, in microseconds. */
#include <stdio.h>
#include <stdlib.h>
#include <time.h>

#include "records.h"

enum { TURNS = 25 };

struct least {
    double skipped, kept, added, merged;
};

static int none(void *with, const struct bytes *record) {
    (void)with;
    (void)record;
    return 0;
}

static void stop(const char *why) {
    fprintf(stderr, "shares: %s\n", why);
    exit(2);
}

/* The microseconds since a moment, where they are fewer than before. */
static void keep_least(double *least, clock_t since) {
    double microseconds = (double)(clock() - since) * 1e6 / CLOCKS_PER_SEC;
    if (*least == 0 || microseconds < *least) *least = microseconds;
}

static void read_lines(const char *name, const struct choice *choice, struct records *records, double *least) {
    FILE *file = fopen(name, "rb");
    if (!file) stop("the file cannot be opened");
    clock_t began = clock();
    if (take_chosen_lines(records, file, name, choice) != ACCEPTED || ferror(file)) stop("the file is no field of accepted records");
    keep_least(least, began);
    fclose(file);
}

static unsigned long count(const struct records *records) {
    unsigned long many = 0;
    for (const struct accepted *at = records->first; at; at = at->next) many++;
    return many;
}

static unsigned long turn(const char *name, struct least *least) {
    const struct choice nothing = {none, NULL};
    struct records *records = new_records();
    struct tallies *tallies = new_tallies();
    if (!records || !tallies) stop(NO_MEMORY);
    read_lines(name, &nothing, records, &least->skipped);
    read_lines(name, NULL, records, &least->kept);
    clock_t began = clock();
    if (settle(records) != ACCEPTED || add_results(records, tallies) != ACCEPTED) stop("a result is refused");
    keep_least(&least->added, began);
    began = clock();
    for (unsigned board = 1; board < BOARDS; board++) {
        uint8_t empty[TALLY_BYTES];
        tally_fresh(board, empty, sizeof empty);
        tally_reduce(empty, tallies->of[board]);
    }
    keep_least(&least->merged, began);
    unsigned long many = count(records);
    free(tallies);
    free_records(records);
    return many;
}

int main(int words, char **names) {
    struct least least = {0, 0, 0, 0};
    unsigned long many = 0;
    if (words != 2) stop("usage: shares FIELD");
    for (int k = 0; k < TURNS; k++) many = turn(names[1], &least);
    double each = (double)many;
    printf("processor time of %lu records: a line skipped %.2f microseconds, read, judged and kept %.2f, added %.2f; 127 tallies merged %.0f\n", many,
           least.skipped / each, least.kept / each, least.added / each, least.merged);
    return 0;
}
