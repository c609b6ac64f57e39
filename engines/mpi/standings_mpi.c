/* The sheets of all boards from files of records, by MPI: each rank judges and tallies its share of the records, one reduction merges the tallies of all ranks,
 * and rank 0 prints what `standings` prints. Every rank has to see the same files. */
#include <mpi.h>
#include <stdio.h>
#include <stdlib.h>

#include "input.h"
#include "operation.h"
#include "program.h"
#include "record.h"
#include "records.h"
#include "sheet.h"
#include "tallies.h"
#include "version.h"

static const struct program PROGRAM = {
    "usage: standings-mpi [-t] FILE...\n"
    "Reads one record a line in hexadecimal from each FILE, judges and tallies them, each rank a share, merges the tallies of each board and prints each\n"
    "board's sheet, boards rising. A record that is refused, that cannot be read, or that stands beside a different one of its board and table is left\n"
    "out. A board that is refused has one line in place of its sheet. What is refused is said on standard error; with -t the seconds that it took.\n"
    "Exits 0 if nothing was refused, 1 if something was, 2 if something could not be read or written.\n"
    "       standings-mpi --help, standings-mpi --version\n",
    "standings-mpi (" JUDGE_VERSION_WORDS ", " TALLY_VERSION_WORDS ")"};

enum { FIRST_RANK = 0, BLOCKS = BOARDS - 1, COMMUTES = 1 };

/* The lines of a file that cannot be read to its end. */
enum { UNREADABLE = -1 };

/* Which records a rank takes: those of its boards and tables, so that two of one board and table are one rank's. */
struct share {
    unsigned long rank, ranks;
    unsigned long line; /* of all files, from 0 */
};

/* The files as all ranks see them. */
struct files {
    int count;
    char **names;
    int *opened; /* whether each can be opened */
    long *lines; /* of each, or UNREADABLE */
};

struct seconds {
    double tallied, merged;
};

/* Ends all ranks, where one cannot go on. */
static void stop(const char *where, const char *why) {
    fprintf(stderr, "standings-mpi: %s%s\n", where, why);
    MPI_Abort(MPI_COMM_WORLD, NOT_READ);
    exit(NOT_READ);
}

/* What an MPI call returned: where it failed, its class and words are said. */
static void check(const char *call, int code) {
    char words[MPI_MAX_ERROR_STRING + 1] = "an error without words";
    int length = 0, class = 0;
    if (code == MPI_SUCCESS) return;
    MPI_Error_class(code, &class);
    MPI_Error_string(code, words, &length);
    fprintf(stderr, "standings-mpi: error class %d\n", class);
    stop(call, words);
}

static void *new_numbers(int count, size_t size) {
    void *numbers = calloc((size_t)count, size);
    if (!numbers) stop("", NO_MEMORY);
    return numbers;
}

/* Whether a line is this rank's: by the bytes of board and table, or by its number where there are none. */
static int is_mine(void *with, const struct bytes *record) {
    struct share *share = with;
    unsigned long line = share->line++;
    int has_both = record && record->length >= BOARD_AND_TABLE_BYTES;
    return (has_both ? (unsigned long)record->at[0] << 8 | record->at[1] : line) % share->ranks == share->rank;
}

/* Finds the files that every rank can open; rank 0 says which are not. */
static enum status open_files(struct files *files, int rank) {
    enum status worst = ACCEPTED;
    for (int k = 0; k < files->count; k++) {
        FILE *file = fopen(files->names[k], "rb");
        files->opened[k] = file != NULL;
        if (file) fclose(file);
    }
    check("MPI_Allreduce: ", MPI_Allreduce(MPI_IN_PLACE, files->opened, files->count, MPI_INT, MPI_MIN, MPI_COMM_WORLD));
    for (int k = 0; k < files->count; k++) {
        if (files->opened[k]) continue;
        worst = NOT_READ;
        if (rank == FIRST_RANK) fprintf(stderr, "%s %s\n", files->names[k], NOT_OPENED);
    }
    return worst;
}

static enum status read_file(struct records *records, struct files *files, int k, struct share *share) {
    const struct choice mine = {is_mine, share};
    unsigned long before = share->line;
    FILE *file = fopen(files->names[k], "rb");
    enum status worst = file ? take_chosen_lines(records, file, files->names[k], &mine) : NOT_READ;
    files->lines[k] = file && !ferror(file) ? (long)(share->line - before) : UNREADABLE;
    if (file) fclose(file);
    return worst;
}

/* Whether every rank has read the same lines; rank 0 says of which file not. */
static int is_read_whole(const struct files *files, int rank) {
    int whole = 1;
    long *least = new_numbers(files->count, sizeof *least), *most = new_numbers(files->count, sizeof *most);
    check("MPI_Allreduce: ", MPI_Allreduce(files->lines, least, files->count, MPI_LONG, MPI_MIN, MPI_COMM_WORLD));
    check("MPI_Allreduce: ", MPI_Allreduce(files->lines, most, files->count, MPI_LONG, MPI_MAX, MPI_COMM_WORLD));
    for (int k = 0; k < files->count; k++) {
        if (least[k] != UNREADABLE && least[k] == most[k]) continue;
        whole = 0;
        if (rank == FIRST_RANK) fprintf(stderr, "%s %s\n", files->names[k], least[k] == UNREADABLE ? NOT_READ_WHOLE : "has other lines on other ranks");
    }
    free(least);
    free(most);
    return whole;
}

/* Reads the files, and adds the results of this rank's records to its tallies. Gives false, on all ranks, where a file was not read to its end. */
static int tally_share(struct files *files, int rank, int ranks, struct tallies *tallies, enum status *worst) {
    struct share share = {(unsigned long)rank, (unsigned long)ranks, 0};
    struct records *records = new_records();
    if (!records) stop("", NO_MEMORY);
    *worst = open_files(files, rank);
    for (int k = 0; k < files->count; k++)
        if (files->opened[k]) *worst = worse(*worst, read_file(records, files, k, &share));
    int whole = is_read_whole(files, rank);
    if (whole) *worst = worse(*worst, settle(records));
    if (whole) *worst = worse(*worst, add_results(records, tallies));
    free_records(records);
    return whole;
}

/* A block a board: its tally merged into the empty one, so that a board at which an addition was refused, whose bytes are no tally, becomes 398 zeros. */
static void fill_blocks(const struct tallies *tallies, uint8_t blocks[BLOCKS][TALLY_BYTES]) {
    for (unsigned board = 1; board < BOARDS; board++) {
        tally_fresh(board, blocks[board - 1], TALLY_BYTES);
        if (tallies->met[board]) tally_reduce(tallies->of[board], blocks[board - 1]);
    }
}

/* Merges the blocks of all ranks at rank 0. A tally is one element of the type, so that no algorithm cuts it. */
static void reduce_blocks(uint8_t mine[BLOCKS][TALLY_BYTES], uint8_t merged[BLOCKS][TALLY_BYTES]) {
    MPI_Datatype block;
    MPI_Op merge;
    check("MPI_Type_contiguous: ", MPI_Type_contiguous(TALLY_BYTES, MPI_BYTE, &block));
    check("MPI_Type_commit: ", MPI_Type_commit(&block));
    check("MPI_Op_create: ", MPI_Op_create(merge_blocks, COMMUTES, &merge));
    check("MPI_Reduce: ", MPI_Reduce(mine, merged, BLOCKS, block, merge, FIRST_RANK, MPI_COMM_WORLD));
    check("MPI_Op_free: ", MPI_Op_free(&merge));
    check("MPI_Type_free: ", MPI_Type_free(&block));
}

/* Prints the sheet of each board that has a result, and says which boards are refused. */
static enum status print_boards(uint8_t blocks[BLOCKS][TALLY_BYTES]) {
    enum status worst = ACCEPTED;
    for (unsigned board = 1; board < BOARDS; board++) {
        const uint8_t *tally = blocks[board - 1];
        int refused = is_zeros(tally);
        if (refused) fprintf(stderr, "board %u refused\n", board);
        if (refused) worst = REFUSED;
        if (refused || count_rows(tally) > 0) print_board(stdout, board, tally);
    }
    return worst;
}

/* The worst status of all ranks, at rank 0. */
static enum status worst_of_all(enum status mine) {
    int number = (int)mine, worst = (int)mine;
    check("MPI_Reduce: ", MPI_Reduce(&number, &worst, 1, MPI_INT, MPI_MAX, FIRST_RANK, MPI_COMM_WORLD));
    return (enum status)worst;
}

static void print_seconds(const struct seconds *mine, int rank, int ranks) {
    struct seconds most = *mine;
    check("MPI_Reduce: ", MPI_Reduce(mine, &most, 2, MPI_DOUBLE, MPI_MAX, FIRST_RANK, MPI_COMM_WORLD));
    if (rank == FIRST_RANK) fprintf(stderr, "%d ranks: %.6f s to read, judge and tally, %.6f s to merge\n", ranks, most.tallied, most.merged);
}

static enum status make_standings(struct files *files, int rank, int ranks, int tells_time) {
    uint8_t mine[BLOCKS][TALLY_BYTES], merged[BLOCKS][TALLY_BYTES];
    struct tallies *tallies = new_tallies();
    struct seconds seconds;
    enum status worst;
    if (!tallies) stop("", NO_MEMORY);
    check("MPI_Barrier: ", MPI_Barrier(MPI_COMM_WORLD));
    double began = MPI_Wtime();
    int whole = tally_share(files, rank, ranks, tallies, &worst);
    fill_blocks(tallies, mine);
    free(tallies);
    if (!whole) return NOT_READ;
    seconds.tallied = MPI_Wtime() - began;
    reduce_blocks(mine, merged);
    seconds.merged = MPI_Wtime() - began - seconds.tallied;
    if (tells_time) print_seconds(&seconds, rank, ranks);
    worst = worst_of_all(worst);
    return rank == FIRST_RANK ? finish(worse(worst, print_boards(merged))) : worst;
}

/* Reads the options, and what follows them is done by all ranks; help, version and usage are rank 0's. */
static enum status run(int count, char **words, int rank, int ranks) {
    struct options options = {count, words, 1, NULL};
    const char *argument = NULL;
    int tells_time = 0;
    for (int option; (option = next_option(&options, "t", &argument)) != OPTIONS_END;) {
        if (option != 't' && rank != FIRST_RANK) return ACCEPTED;
        if (option == OPTION_HELP) return print_help(&PROGRAM);
        if (option == OPTION_VERSION) return print_version(&PROGRAM);
        if (option == OPTION_WRONG) return print_usage(&PROGRAM);
        tells_time = 1;
    }
    struct files files = {count - options.next, words + options.next, NULL, NULL};
    if (files.count == 0) return rank == FIRST_RANK ? print_usage(&PROGRAM) : ACCEPTED;
    files.opened = new_numbers(files.count, sizeof *files.opened);
    files.lines = new_numbers(files.count, sizeof *files.lines);
    enum status worst = make_standings(&files, rank, ranks, tells_time);
    free(files.opened);
    free(files.lines);
    return worst;
}

/* Rank 0 alone ends with the status: a launcher ends all ranks at the first that ends with another than 0. */
int main(int count, char **words) {
    int rank = 0, ranks = 1;
    setvbuf(stderr, NULL, _IOLBF, BUFSIZ); /* a line at a time, so that those of other ranks stand between lines */
    check("MPI_Init: ", MPI_Init(&count, &words));
    check("MPI_Comm_set_errhandler: ", MPI_Comm_set_errhandler(MPI_COMM_WORLD, MPI_ERRORS_RETURN));
    check("MPI_Comm_rank: ", MPI_Comm_rank(MPI_COMM_WORLD, &rank));
    check("MPI_Comm_size: ", MPI_Comm_size(MPI_COMM_WORLD, &ranks));
    enum status worst = run(count, words, rank, ranks);
    check("MPI_Finalize: ", MPI_Finalize());
    return rank == FIRST_RANK ? (int)worst : (int)ACCEPTED;
}
