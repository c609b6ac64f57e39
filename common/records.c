#include "records.h"

#include <stdlib.h>
#include <string.h>

#include "judged.h"
#include "record.h"
#include "refusal.h"

struct records *new_records(void) {
    struct records *records = calloc(1, sizeof *records);
    if (records)
        records->end = &records->first;
    else
        fprintf(stderr, "%s\n", NO_MEMORY);
    return records;
}

static void free_accepted(struct accepted *accepted) {
    free(accepted->record.at);
    free(accepted);
}

void free_records(struct records *records) {
    if (!records) return;
    for (struct accepted *at = records->first, *next; at; at = next) {
        next = at->next;
        free_accepted(at);
    }
    free(records);
}

/* `FILE`, or `FILE, line 7`. */
static void say_place(const char *name, unsigned long line) {
    fprintf(stderr, "%s", name);
    if (line) fprintf(stderr, ", line %lu", line);
}

enum status leave_unread(struct records *records, const char *name, unsigned long line, const char *why) {
    records->left_out++;
    say_place(name, line);
    fprintf(stderr, " %s\n", why);
    return NOT_READ;
}

static void keep(struct records *records, struct accepted *accepted) {
    struct accepted **first = &records->at[accepted->board][accepted->table];
    if (*first)
        (*first)->last->another = accepted;
    else
        *first = accepted;
    (*first)->last = accepted;
    *records->end = accepted;
    records->end = &accepted->next;
}

enum status take_record(struct records *records, const char *name, unsigned long line, struct bytes *record) {
    struct judged judged = judge_bytes(record->at, record->length);
    if (judged.number != 0) {
        records->left_out++;
        say_place(name, line);
        fprintf(stderr, ": record refused, ");
        print_refusal(stderr, judged.number);
        return REFUSED;
    }
    struct accepted *accepted = calloc(1, sizeof *accepted);
    if (!accepted) return leave_unread(records, name, line, NO_MEMORY);
    accepted->name = name;
    accepted->line = line;
    accepted->record = *record;
    accepted->board = judged.judgement.board;
    accepted->table = judged.judgement.table;
    accepted->score = judged.judgement.score;
    accepted->counts = 1;
    memset(record, 0, sizeof *record);
    keep(records, accepted);
    return ACCEPTED;
}

enum status take_file(struct records *records, const char *name) {
    struct bytes record;
    enum status status = NOT_READ;
    if (read_input(name, BY_NAME, &record))
        status = take_record(records, shown_name(name), 0, &record);
    else
        records->left_out++;
    free(record.at);
    return status;
}

/* Whether a line is taken; the choice is asked of every line. */
static int is_chosen(const struct choice *choice, enum line_read read, const struct bytes *record, const char *fault) {
    if (!choice || read == LINE_NONE) return 1;
    return choice->takes(choice->with, read == LINE_RECORD ? record : NULL) || fault == NO_MEMORY;
}

enum status take_chosen_lines(struct records *records, FILE *file, const char *name, const struct choice *choice) {
    enum status worst = ACCEPTED;
    enum line_read read = LINE_BLANK;
    for (unsigned long line = 1; read != LINE_NONE; line++) {
        struct bytes record;
        const char *fault = NULL;
        read = read_hex_line(file, &record, &fault);
        int chosen = is_chosen(choice, read, &record, fault);
        if (chosen && read == LINE_BAD) worst = worse(worst, leave_unread(records, name, line, fault));
        if (chosen && read == LINE_RECORD) worst = worse(worst, take_record(records, name, line, &record));
        free(record.at);
    }
    return worst;
}

enum status take_lines(struct records *records, FILE *file, const char *name) {
    enum status worst = take_chosen_lines(records, file, name, NULL);
    return ferror(file) ? leave_unread(records, name, 0, NOT_READ_WHOLE) : worst;
}

static int is_same(const struct bytes *a, const struct bytes *b) { return a->length == b->length && memcmp(a->at, b->at, a->length) == 0; }

/* `FILE: the same record as FILE, counted once`, for each but the first of some records with the same bytes. */
static void count_once(struct accepted *first) {
    for (struct accepted *at = first->another; at; at = at->another) {
        at->counts = 0;
        say_place(at->name, at->line);
        fprintf(stderr, ": the same record as ");
        say_place(first->name, first->line);
        fprintf(stderr, ", counted once\n");
    }
}

/* `FILE: a different record of board 7 table 3 is FILE, left out`, for each of the records. */
static void leave_out(struct records *records, struct accepted *first) {
    const struct accepted *other = first->another;
    while (is_same(&first->record, &other->record)) other = other->another;
    for (struct accepted *at = first; at; at = at->another) {
        const struct accepted *different = is_same(&at->record, &first->record) ? other : first;
        at->counts = 0;
        records->left_out++;
        say_place(at->name, at->line);
        fprintf(stderr, ": left out, a different record of board %u table %u is ", at->board, at->table);
        say_place(different->name, different->line);
        fprintf(stderr, "\n");
    }
}

static int are_same(const struct accepted *first) {
    for (const struct accepted *at = first->another; at; at = at->another)
        if (!is_same(&first->record, &at->record)) return 0;
    return 1;
}

enum status settle(struct records *records) {
    enum status worst = ACCEPTED;
    for (struct accepted *at = records->first; at; at = at->next) {
        if (at != records->at[at->board][at->table] || !at->another) continue;
        if (are_same(at)) {
            count_once(at);
        } else {
            leave_out(records, at);
            worst = REFUSED;
        }
    }
    return worst;
}

enum status add_results(const struct records *records, struct tallies *tallies) {
    enum status worst = ACCEPTED;
    for (const struct accepted *at = records->first; at; at = at->next) {
        uint32_t number = at->counts ? add_result(tallies, at->board, at->score, at->record.at + BOARD_AND_TABLE_BYTES) : 0;
        if (number == 0) continue;
        worst = REFUSED;
        say_place(at->name, at->line);
        fprintf(stderr, ": board %u refused, ", at->board);
        if (tally_refusal_of(number) == TALLY_MALFORMED)
            fprintf(stderr, "as it was before\n");
        else
            print_refusal(stderr, number);
    }
    return worst;
}
