/* Feeds the C programs whole, and the helpers of the headers, for libFuzzer with the address and undefined behaviour sanitizers. The first byte of an input
 * says which program with which options, the others are what it reads. A crash, a leak, a hang or an exit status that does not match what was printed is a
 * finding.
 *
 * The mains are compiled under other names; standard input, output and error are put in memory, which glibc allows. It runs in a folder of its own, and no word
 * that it hands to a program has a slash, so that nothing else is written to. */
#define _GNU_SOURCE
#include <dirent.h>
#include <stdint.h>
#include <stdio.h>
#include <stdlib.h>
#include <string.h>
#include <sys/stat.h>
#include <unistd.h>

#include "judge.h"
#include "judge_words.h"
#include "tally.h"

int terminal_main(int count, char **words);
int section_main(int count, char **words);
int standings_main(int count, char **words);

enum { MOST_WORDS = 8 };
static const char OUT[] = "out", IN[] = "in", OTHER[] = "in.hex";

/* A file need not reach the disk here. */
int fsync(int file) {
    (void)file;
    return 0;
}

/* What a program printed, and how it ended. */
struct run {
    int status;
    char *out, *err;
    size_t out_length, err_length;
};

static void stop(const char *what, const struct run *run) {
    fprintf(stderr, "%s: status %d, standard output\n%s\nstandard error\n%s\n", what, run->status, run->out, run->err);
    abort();
}

static struct run run_program(int (*program)(int, char **), int count, char **words, const uint8_t *data, size_t size) {
    struct run run = {0, NULL, NULL, 0, 0};
    FILE *in = stdin, *out = stdout, *err = stderr;
    uint8_t empty = 0;
    stdin = fmemopen(size ? (void *)data : &empty, size ? size : 1, "rb");
    if (size == 0) getc(stdin);
    stdout = open_memstream(&run.out, &run.out_length);
    stderr = open_memstream(&run.err, &run.err_length);
    run.status = program(count, words);
    fclose(stdin);
    fclose(stdout);
    fclose(stderr);
    stdin = in, stdout = out, stderr = err;
    return run;
}

static int says(const char *text, size_t length, const char *words) { return memmem(text, length, words, strlen(words)) != NULL; }

/* The status is 0, 1 or 2, and what was printed says so: nothing refused; something refused or left out; something said of what could not be read. Help speaks
 * of both. */
static void check(const struct run *run) {
    if (run->status == 0 && run->err_length == 0 && strncmp(run->out, "usage: ", 7) == 0) return;
    int refused = says(run->out, run->out_length, "refused") || says(run->err, run->err_length, "refused") || says(run->err, run->err_length, "left out")
                  || says(run->err, run->err_length, "of no board");
    if (run->status < 0 || run->status > 2) stop("no such status", run);
    if (run->status == 0 && refused) stop("refused, and not told by the status", run);
    if (run->status == 1 && !refused) stop("told as refused, and nothing was", run);
    if (run->status == 2 && run->err_length == 0) stop("told as not read, and nothing was said", run);
}

static void forget(struct run *run) {
    free(run->out);
    free(run->err);
}

static void put_file(const char *name, const uint8_t *data, size_t size) {
    FILE *file = fopen(name, "wb");
    if (!file || fwrite(data, 1, size, file) != size || fclose(file) != 0) abort();
}

/* Runs `section`: its output is tallies where it is 0, and is there only where nothing was left out or -k was given. */
static void try_section(int count, char **words, int keeps_on, const uint8_t *data, size_t size) {
    struct stat known;
    unlink(OUT);
    struct run run = run_program(section_main, count, words, data, size);
    check(&run);
    int there = stat(OUT, &known) == 0, left_out = says(run.err, run.err_length, "left out");
    if (run.status == 0 && !there) stop("accepted, and not written", &run);
    if (there && left_out && !keeps_on) stop("left out, and written", &run);
    if (there && known.st_size % TALLY_BYTES != 0) stop("written, and no tallies", &run);
    forget(&run);
    if (!there) return;
    char *names[] = {(char *)"standings", (char *)OUT};
    run = run_program(standings_main, 2, names, NULL, 0);
    check(&run);
    forget(&run);
}

static void try_program(int (*program)(int, char **), int count, char **words, const uint8_t *data, size_t size) {
    struct run run = run_program(program, count, words, data, size);
    check(&run);
    forget(&run);
}

/* Removes what programs wrote in the folder. */
static void clear_folder(void) {
    DIR *here = opendir(".");
    if (!here) return;
    for (struct dirent *entry = readdir(here); entry; entry = readdir(here)) unlink(entry->d_name);
    closedir(here);
}

/* The words of an input, a line each, without slashes; the number of them. */
static int cut_words(char *text, char **words) {
    int count = 1;
    for (char *line = strtok(text, "\n"); line && count < MOST_WORDS; line = strtok(NULL, "\n")) words[count++] = line;
    return count;
}

static void try_options(const uint8_t *data, size_t size) {
    static int (*const PROGRAMS[])(int, char **) = {terminal_main, section_main, standings_main};
    char *text = malloc(size + 1), *words[MOST_WORDS + 1] = {(char *)"program"};
    if (!text) return;
    memcpy(text, data, size);
    text[size] = '\0';
    for (size_t k = 0; k < size; k++)
        if (text[k] == '/') text[k] = '_';
    int count = cut_words(text, words);
    try_program(PROGRAMS[size % 3], count, words, data, size);
    free(text);
    clear_folder();
}

/* The helpers on any bytes and numbers: they stay within their bounds, and those that are each other's inverse agree. */
static void try_helpers(const uint8_t *data, size_t size) {
    uint32_t numbers[4] = {0};
    uint8_t bytes[TALLY_BYTES] = {0}, other[TALLY_BYTES] = {0};
    char words[JUDGE_WORDS_MOST];
    memcpy(numbers, data, size < sizeof numbers ? size : sizeof numbers);
    memcpy(bytes, data, size < sizeof bytes ? size : sizeof bytes);
    memcpy(other, data + size / 2, size / 2 < sizeof other ? size / 2 : sizeof other);
    size_t length = judge_words(numbers[0] % 40, numbers[1] % 1100, words, numbers[2] % sizeof words);
    if (length >= JUDGE_WORDS_MOST || (length && length < numbers[2] % sizeof words && strlen(words) != length)) abort();
    unsigned call = judge_call(numbers[0] % 9, numbers[1] % 6), card = judge_card(numbers[2] % 5, numbers[3] % 14);
    if (call != JUDGE_NONE && judge_call(judge_level_of(call), judge_strain_of(call)) != call) abort();
    if (card != JUDGE_NONE && judge_card(judge_suit_of(card), judge_rank_of(card)) != card) abort();
    if (judge_unpack(bytes).strain > 7 || judge_count_failures(bytes) > JUDGE_FAILURE_BYTES / 2 || judge_unpack_revoke(bytes[0]).suit > 3) abort();
    for (unsigned trick = 1; trick <= 13; trick++) judge_unpack_trick(bytes, trick);
    if (!judge_is_refusal(judge_dealer(numbers[0])) != !judge_is_refusal(judge_vulnerable(numbers[0]))) abort();
    uint8_t holders[TALLY_HOLDERS], merged[TALLY_BYTES];
    tally_unpack_deal(bytes + 1, holders);
    for (unsigned place = 0; place < TALLY_PLACES; place++)
        if (tally_count_at(bytes, place) > 255 || tally_score_at(bytes, place) > 32767) abort();
    memcpy(merged, other, sizeof merged);
    if ((tally_merge_into(bytes, merged) != 0) != (tally_board(merged) == 0)) abort();
    if (tally_unpack_points(bytes).ns > 65535 || tally_unpack_shares(bytes).ew > 65535) abort();
    double percentage = tally_percentage_of(bytes);
    memcpy(merged, &percentage, sizeof percentage);
}

/* A folder that is removed again at the end. */
static char folder[] = "/tmp/fuzz-programs.XXXXXX";

static void leave(void) {
    if (chdir(folder) == 0) clear_folder();
    if (chdir("/") == 0) rmdir(folder);
}

int LLVMFuzzerInitialize(int *count, char ***words) {
    (void)count, (void)words;
    if (!mkdtemp(folder)) abort();
    atexit(leave);
    return 0;
}

static void try_input(const uint8_t *data, size_t size) {
    char *const terminal = (char *)"terminal", *const section = (char *)"section";
    char *words[MOST_WORDS] = {terminal, (char *)"-v", (char *)"-b", NULL};
    uint8_t kind = data[0];
    data++, size--;
    switch (kind % 9) {
    case 0: try_program(terminal_main, 3, words, data, size); return;
    case 1: words[2] = (char *)"-x"; try_program(terminal_main, 3, words, data, size); return;
    case 2: words[1] = (char *)"-w"; try_program(terminal_main, 2, words, data, size); return;
    case 3: {
        char *lines[] = {section, (char *)"-o", (char *)OUT};
        try_section(3, lines, 0, data, size);
        return;
    }
    case 4: {
        char *lines[] = {section, (char *)"-ko", (char *)OUT};
        try_section(3, lines, 1, data, size);
        return;
    }
    case 5: {
        char *files[] = {section, (char *)"-k", (char *)"-oout", (char *)IN, (char *)"-", (char *)OTHER, (char *)IN};
        put_file(IN, data, size);
        put_file(OTHER, data, size);
        try_section(7, files, 1, data, size);
        return;
    }
    case 6: {
        char *files[] = {(char *)"standings", (char *)"-", (char *)IN};
        put_file(IN, data + size / 2 / TALLY_BYTES * TALLY_BYTES, size - size / 2 / TALLY_BYTES * TALLY_BYTES);
        try_program(standings_main, 3, files, data, size);
        return;
    }
    case 7: try_options(data, size); return;
    default: try_helpers(data, size);
    }
}

int LLVMFuzzerTestOneInput(const uint8_t *data, size_t size) {
    static int entered = 0;
    if (!entered && chdir(folder) != 0) abort();
    entered = 1;
    if (size > 0) try_input(data, size);
    return 0;
}
