/* Makes the calls of a file again that tests/src/kept.rs has kept, each slice and each buffer in a heap block of exactly its length, and
 * holds the number returned and every byte of each buffer to those kept. */
#include <stdint.h>
#include <stdio.h>
#include <stdlib.h>
#include <string.h>

#include "judge.h"
#include "tally.h"

enum { MOST = 4 };

/* A call: its numbers, its slices, the lent buffers, and their lengths. */
struct call {
    int kind, numbers, slices, buffers;
    uint32_t number[MOST];
    uint8_t *slice[MOST], *buffer[MOST];
    size_t length[MOST], room[MOST];
};

static void stop(const char *why) {
    fprintf(stderr, "%s\n", why);
    exit(2);
}

static void take(FILE *file, void *to, size_t length) {
    if (fread(to, 1, length, file) != length) stop("the file ends inside a call");
}

static uint32_t number(FILE *file) {
    uint8_t b[4];
    take(file, b, sizeof b);
    return (uint32_t)b[0] | (uint32_t)b[1] << 8 | (uint32_t)b[2] << 16 | (uint32_t)b[3] << 24;
}

static uint8_t *block(size_t length) {
    uint8_t *at = malloc(length);
    if (!at && length) stop("no memory");
    return at;
}

static uint8_t *taken(FILE *file, size_t length) {
    uint8_t *at = block(length);
    take(file, at, length);
    return at;
}

static uint32_t of_a_score(struct call *c, uint32_t (*made)(const uint8_t *, size_t, int32_t, const uint8_t *, size_t, uint8_t *, size_t)) {
    int32_t score;
    memcpy(&score, &c->number[0], sizeof score);
    return made(c->slice[0], c->length[0], score, c->slice[1], c->length[1], c->buffer[0], c->room[0]);
}

/* The order is that of Call in tests/src/kept.rs. */
static uint32_t make(struct call *c) {
    uint8_t **s = c->slice, **b = c->buffer;
    size_t *l = c->length, *r = c->room;
    uint32_t *n = c->number;
    switch (c->kind) {
    case 0: return judge_record(s[0], l[0], b[0], r[0], b[1], r[1], b[2], r[2], b[3], r[3]);
    case 1: return judge_write_record(n[0], n[1], s[0], l[0], s[1], l[1], s[2], l[2], n[2], n[3], b[0], r[0]);
    case 2: return judge_best_play(s[0], l[0]);
    case 3: return judge_read_pbn(s[0], l[0], n[0], b[0], r[0]);
    case 4: return judge_slip(s[0], l[0], b[0], r[0]);
    case 5: return judge_dealer(n[0]);
    case 6: return judge_vulnerable(n[0]);
    case 7: return tally_fresh(n[0], b[0], r[0]);
    case 8: return of_a_score(c, tally_add);
    case 9: return tally_merge(s[0], l[0], s[1], l[1], b[0], r[0]);
    case 10: return of_a_score(c, tally_matchpoints);
    case 11: return tally_award(n[0], b[0], r[0]);
    case 12: return of_a_score(c, tally_cell);
    case 13: return of_a_score(c, tally_hundredths);
    default: stop("a call of no kind"); return 0;
    }
}

static struct call read_call(FILE *file, int kind) {
    struct call c = {.kind = kind};
    uint8_t counts[3];
    take(file, counts, sizeof counts);
    c.numbers = counts[0], c.slices = counts[1], c.buffers = counts[2];
    if (c.numbers > MOST || c.slices > MOST || c.buffers > MOST) stop("a call with too many arguments");
    for (int k = 0; k < c.numbers; k++) c.number[k] = number(file);
    for (int k = 0; k < c.slices; k++) c.length[k] = number(file), c.slice[k] = taken(file, c.length[k]);
    for (int k = 0; k < c.buffers; k++) c.room[k] = number(file), c.buffer[k] = taken(file, c.room[k]);
    return c;
}

static int one(FILE *file, int kind) {
    struct call c = read_call(file, kind);
    uint32_t returned = make(&c);
    int equal = returned == number(file);
    for (int k = 0; k < c.buffers; k++) {
        uint8_t *due = taken(file, c.room[k]);
        if (c.room[k] && memcmp(due, c.buffer[k], c.room[k]) != 0) equal = 0;
        free(due);
        free(c.buffer[k]);
    }
    for (int k = 0; k < c.slices; k++) free(c.slice[k]);
    if (!equal) fprintf(stderr, "kind %d returned %lu\n", kind, (unsigned long)returned);
    return equal;
}

int main(int count, char **words) {
    unsigned long calls = 0;
    for (int k = 1; k < count; k++) {
        FILE *file = fopen(words[k], "rb");
        if (!file) {
            perror(words[k]);
            return 2;
        }
        for (int kind = getc(file); kind != EOF; kind = getc(file), calls++) {
            if (!one(file, kind)) {
                fprintf(stderr, "%s: a difference in call %lu\n", words[k], calls);
                return 1;
            }
        }
        fclose(file);
    }
    printf("%lu calls made again, no difference\n", calls);
    return 0;
}
