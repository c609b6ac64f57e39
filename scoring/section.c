/* The tallies of one section: judges table records, adds each score with its deal to its board's tally, and writes one file of tallies, 398
 * bytes a board, boards rising. A board at which an addition is refused is written as its number and 397 bytes of 255, which is no tally. */
#include <stdio.h>
#include <stdlib.h>

#include "input.h"
#include "output.h"
#include "program.h"
#include "records.h"
#include "tallies.h"
#include "version.h"

static const struct program PROGRAM = {
    "usage: section [-k] -o OUT [FILE]...\n"
    "Judges the table record in each FILE, bytes, or hexadecimal where its name ends in .hex; or on standard input, where no FILE is given,\n"
    "one record a line in hexadecimal. Writes the tally of each board to OUT, 398 bytes each, boards rising; - is standard output.\n"
    "A record that is refused, that cannot be read, or that stands beside a different one of its board and table leaves OUT as it was;\n"
    "with -k the others are written. The same record twice counts once. A board at which an addition is refused is written as one that no\n"
    "call takes. What is refused is said on standard error.\n"
    "Exits 0 if nothing was refused, 1 if something was, 2 if something could not be read or written.\n"
    "       section --help, section --version\n",
    "section (" JUDGE_VERSION_WORDS ", " TALLY_VERSION_WORDS ")"};

static int put_tallies(FILE *file, const struct tallies *tallies) {
    for (unsigned board = 1; board < BOARDS; board++)
        if (tallies->met[board] && fwrite(tallies->of[board], 1, TALLY_BYTES, file) != TALLY_BYTES) return 0;
    return 1;
}

/* Writes the tallies where all records count or it is said to keep on; says how many are left out. */
static enum status write_tallies(const char *out, const struct records *records, const struct tallies *tallies, int keep_on) {
    struct output output;
    const char *many = records->left_out == 1 ? "" : "s";
    if (records->left_out > 0) fprintf(stderr, "%s: %lu record%s left out%s\n", out, records->left_out, many, keep_on ? "" : ", not written");
    if (records->left_out > 0 && !keep_on) return REFUSED;
    int opened = open_output(&output, out), put = opened && put_tallies(output.file, tallies);
    if (opened && close_output(&output) && put) return ACCEPTED;
    fprintf(stderr, "%s cannot be written\n", out);
    return NOT_READ;
}

static enum status take_all(struct records *records, int count, char **names) {
    enum status worst = count > 0 ? ACCEPTED : take_lines(records, stdin, shown_name("-"));
    for (int k = 0; k < count; k++) worst = worse(worst, take_file(records, names[k]));
    return worse(worst, settle(records));
}

/* Whether the output is one of the inputs, which is then said. */
static int is_input(const char *out, int count, char **names) {
    int found = count == 0 && is_same_file("-", out);
    for (int k = 0; k < count && !found; k++) found = is_same_file(names[k], out);
    if (found) fprintf(stderr, "%s is read, and is not written over\n", out);
    return found;
}

static enum status make_section(const char *out, int keep_on, int count, char **names) {
    enum status worst = NOT_READ;
    if (is_input(out, count, names)) return NOT_READ;
    struct records *records = new_records();
    struct tallies *tallies = records ? new_tallies() : NULL;
    if (tallies) {
        worst = take_all(records, count, names);
        worst = worse(worst, add_results(records, tallies));
        worst = worse(worst, write_tallies(out, records, tallies, keep_on));
    }
    free(tallies);
    free_records(records);
    return worst;
}

int main(int count, char **words) {
    struct options options = {count, words, 1, NULL};
    const char *out = NULL;
    int keep_on = 0;
    for (int option; (option = next_option(&options, "ko:", &out)) != OPTIONS_END;) {
        if (option == OPTION_HELP) return print_help(&PROGRAM);
        if (option == OPTION_VERSION) return print_version(&PROGRAM);
        if (option == OPTION_WRONG) return print_usage(&PROGRAM);
        if (option == 'k') keep_on = 1;
    }
    if (!out) return print_usage(&PROGRAM);
    return make_section(out, keep_on, count - options.next, words + options.next);
}
