/* How much stack the judge takes: it judges the records of a file that the program blocks writes on a stack of its own, whose bytes are set to a pattern
 * before, and says how many of them have changed. More than 64 KiB is a failure. */
#define _XOPEN_SOURCE 700
#include <stdio.h>
#include <string.h>
#include <ucontext.h>

#include "judge.h"

enum { STACK = 1 << 20, MOST = 1 << 16, PATTERN = 0xA5 };

static uint8_t stack[STACK];
static uint8_t record[1 << 16], answer[1 << 16], list[1 << 16], failures[1 << 16], winners[1 << 16];
static size_t record_len, answer_len, list_len, failures_len, winners_len;
static uint32_t returned;
static ucontext_t here, judging;

static void judge_one(void) {
    returned = judge_record(record, record_len, answer, answer_len, list, list_len, failures, failures_len, winners, winners_len);
}

static uint32_t number(FILE *file, int bytes) {
    uint32_t value = 0;
    while (bytes-- > 0) value = value << 8 | (uint32_t)(getc(file) & 255);
    return value;
}

/* Judges what was read on the other stack; 0 where there is no such context. */
static int judged(void) {
    if (getcontext(&judging) != 0) return 0;
    judging.uc_stack.ss_sp = stack;
    judging.uc_stack.ss_size = sizeof stack;
    judging.uc_link = &here;
    makecontext(&judging, judge_one, 0);
    return swapcontext(&here, &judging) == 0;
}

/* Reads and judges one record of the file; 0 where the file ends, or the number is not the one due. */
static int one(FILE *file) {
    uint32_t due;
    int first = getc(file);
    if (first == EOF) return 0;
    record_len = (size_t)first << 8 | number(file, 1);
    answer_len = number(file, 2);
    list_len = number(file, 2);
    failures_len = number(file, 2);
    winners_len = number(file, 2);
    due = number(file, 4);
    if (fread(record, 1, record_len, file) != record_len || !judged() || returned != due) return 0;
    if (due == 0) {
        number(file, JUDGE_ANSWER_BYTES);
        for (uint32_t bytes = number(file, 1) + JUDGE_FAILURE_BYTES; bytes > 0; bytes--) number(file, 1);
        for (uint32_t bytes = number(file, 1); bytes > 0; bytes--) number(file, 1);
    }
    return 1;
}

int main(int count, char **words) {
    FILE *file = count == 2 ? fopen(words[1], "rb") : NULL;
    unsigned long records = 0;
    size_t untouched = 0;
    if (!file) {
        fputs("usage: stack FILE\n", stderr);
        return 2;
    }
    memset(stack, PATTERN, sizeof stack);
    while (one(file)) records++;
    int ended = feof(file);
    fclose(file);
    while (untouched < sizeof stack && stack[untouched] == PATTERN) untouched++;
    printf("%lu records, at most %lu bytes of stack\n", records, (unsigned long)(sizeof stack - untouched));
    return ended && records > 0 && sizeof stack - untouched <= MOST ? 0 : 1;
}
