/* The sheets of all boards of some sections: merges each board's tallies from the files that `section` writes, in whatever order they are
 * given, and prints each board's sheet. What is printed on standard output does not depend on the order. */
#include <stdio.h>
#include <stdlib.h>

#include "input.h"
#include "program.h"
#include "refusal.h"
#include "sheet.h"
#include "tallies.h"
#include "version.h"

static const struct program PROGRAM = {
    "usage: standings FILE...\n"
    "Merges the tallies of each board in the files, as `section` writes them, and prints each board's sheet, boards rising; - is standard input.\n"
    "A board whose merge is refused has one line in place of its sheet. What is refused is said on standard error.\n"
    "Exits 0 if nothing was refused, 1 if something was, 2 if something could not be read or written.\n"
    "       standings --help, standings --version\n",
    "standings (" TALLY_VERSION_WORDS ")"};

/* Merges one tally of a file into its board's, the `which`-th of the file, from 1; 398 zeros stand for a board whose merge was refused. */
static enum status take(struct tallies *merged, const char *name, unsigned long which, const uint8_t *tally) {
    unsigned board = tally_board(tally);
    if (board < 1 || board >= BOARDS) {
        fprintf(stderr, "%s, tally %lu: of no board from 1 to 127\n", name, which);
        return REFUSED;
    }
    meet_board(merged, board);
    int before = is_zeros(merged->of[board]);
    uint32_t number = tally_merge_into(tally, merged->of[board]);
    if (number == 0) return ACCEPTED;
    fprintf(stderr, "%s: board %u refused, ", name, board);
    if (before)
        fprintf(stderr, "as it was before\n");
    else
        print_refusal(stderr, number);
    return REFUSED;
}

static enum status take_tallies(struct tallies *merged, const char *name, const struct bytes *bytes) {
    enum status worst = ACCEPTED;
    if (bytes->length % TALLY_BYTES != 0) {
        fprintf(stderr, "%s is no file of tallies, %d bytes each\n", name, TALLY_BYTES);
        return NOT_READ;
    }
    for (size_t at = 0; at < bytes->length; at += TALLY_BYTES)
        worst = worse(worst, take(merged, name, (unsigned long)(at / TALLY_BYTES + 1), bytes->at + at));
    return worst;
}

static enum status take_file(struct tallies *merged, const char *name) {
    struct bytes bytes;
    enum status status = read_input(name, BINARY, &bytes) ? take_tallies(merged, shown_name(name), &bytes) : NOT_READ;
    free(bytes.at);
    return status;
}

static enum status merge_files(int count, char **names) {
    enum status worst = ACCEPTED;
    struct tallies *merged = new_tallies();
    if (!merged) return NOT_READ;
    for (int k = 0; k < count; k++) worst = worse(worst, take_file(merged, names[k]));
    for (unsigned board = 1; board < BOARDS; board++)
        if (merged->met[board]) print_board(stdout, board, merged->of[board]);
    free(merged);
    return finish(worst);
}

int main(int count, char **words) {
    struct options options = {count, words, 1, NULL};
    const char *argument = NULL;
    for (int option; (option = next_option(&options, "", &argument)) != OPTIONS_END;) {
        if (option == OPTION_HELP) return print_help(&PROGRAM);
        if (option == OPTION_VERSION) return print_version(&PROGRAM);
        return print_usage(&PROGRAM);
    }
    if (options.next == count) return print_usage(&PROGRAM);
    return merge_files(count - options.next, words + options.next);
}
