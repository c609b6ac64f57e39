#include "write.h"

#include <stdio.h>
#include <stdlib.h>

#include "contents.h"
#include "judge.h"
#include "refusal.h"

static enum status write_contents(const char *shown, const struct contents *c) {
    uint8_t record[JUDGE_RECORD_MOST];
    uint32_t number = judge_write_record(c->board, c->table, c->holders, sizeof c->holders, c->calls.at, c->calls.length, c->cards.at,
                                         c->cards.length, c->marked, c->claim, record, sizeof record);
    if (judge_is_refusal(number)) {
        fprintf(stderr, "%s: refused, ", shown);
        print_refusal(stderr, number);
        return REFUSED;
    }
    return fwrite(record, 1, number, stdout) == number ? ACCEPTED : NOT_READ;
}

/* `FILE, line 2: board x7: not a number`. */
static void say_fault(const char *shown, const struct fault *fault) {
    fprintf(stderr, "%s", shown);
    if (fault->line > 0) fprintf(stderr, ", line %lu:", fault->line);
    if (fault->keyword) fprintf(stderr, fault->word ? " %s %s:" : " %s:", fault->keyword, fault->word);
    fprintf(stderr, " %s\n", fault->what);
}

enum status write_file(const char *name) {
    struct bytes text;
    struct contents contents = {0};
    enum status status = NOT_READ;
    if (read_input(name, BINARY, &text)) {
        struct fault fault = read_contents(&text, &contents);
        if (fault.what)
            say_fault(shown_name(name), &fault);
        else
            status = write_contents(shown_name(name), &contents);
    }
    free(text.at);
    free(contents.calls.at);
    free(contents.cards.at);
    return status;
}
