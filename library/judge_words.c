#include "judge_words.h"

#include <string.h>

enum { LAST_REFUSAL = 33, LAST_PLACE = 1023, DECIMAL_DIGITS = 10 };

/* Words of a refusal: what stands before its place, null where the place is not said, and behind it. From place `cut` on, where that is not 0, `beyond`
 * follows the place, since places are not counted further there. */
struct words {
    const char *before, *behind, *beyond;
    uint32_t cut;
};

static const struct words WORDS[LAST_REFUSAL + 1] = {
    [2] = {NULL, "the record ends before a field is whole", NULL, 0},
    [5] = {"call ", ": no such call", NULL, 0},
    [6] = {"call ", ": bid not above the last bid", NULL, 0},
    [7] = {"call ", ": double or redouble not allowed", NULL, 0},
    [8] = {"call ", ": the auction was over", NULL, 0},
    [9] = {"after ", " calls: the auction is not over", NULL, 0},
    [10] = {"play count ", ": over 52, or cards for a passed-out board", " or more", 63},
    [11] = {"play ", ": no such card", NULL, 0},
    [12] = {"play ", ": card dealt to another seat", NULL, 0},
    [13] = {"after ", " cards: no claim, and not all 52 cards", NULL, 0},
    [14] = {"after ", " cards: a claim cannot stand here", NULL, 0},
    [15] = {"claim of ", ": more tricks than are left", " or more", 15},
    [16] = {NULL, "a padding bit is 1, or a byte follows the record", NULL, 0},
    [17] = {NULL, "a tally that is not as described", NULL, 0},
    [18] = {NULL, "tallies of two boards", NULL, 0},
    [19] = {NULL, "more than 128 results", NULL, 0},
    [20] = {NULL, "a score that is not valid", NULL, 0},
    [21] = {NULL, "a score that no result has", NULL, 0},
    [22] = {NULL, "no room for the record", NULL, 0},
    [23] = {"play ", ": card already played", NULL, 0},
    [24] = {"call ", ": mark not followed by a bid at or below a last bid", NULL, 0},
    [25] = {"play ", ": exposed is no card in a defender's hand, or is faced already", NULL, 0},
    [26] = {"play ", ": choice of a lead not open, or no card after an exposure or choice", NULL, 0},
    [27] = {"play ", ": more than 40 exposures and choices", NULL, 0},
    [28] = {NULL, "a fouled board, results of two deals", NULL, 0},
    [29] = {NULL, "a board that is not 1 to 127, or was played already", NULL, 0},
    [30] = {NULL, "more than 32 boards", NULL, 0},
    [31] = {NULL, "passed out, more than 16 cards left, or not at a trick's end", NULL, 0},
    [32] = {"line ", ": text outside the subset, or its dealer, leader or Play tag is wrong", " or later", LAST_PLACE},
    [33] = {"more than ", " calls and marks", NULL, 0},
};

/* Words of the refusals that say something else at each place; the last ones of 3 and 4 serve for every place from theirs on. */
static const char *const SHORT_BUFFERS[] = {"answer under 7 bytes", "list of revokes under 48 bytes", "list of failures under 52 bytes",
                                            "list of winners under 26 bytes"};
static const char *const NO_BOARD_OR_TABLE[] = {"board not 1 to 127", "table not 1 to 511"};
static const char *const NO_DEAL[] = {"deal: N does not have 13 cards", "deal: E does not have 13 cards", "deal: S does not have 13 cards",
                                      "deal: W does not have 13 cards", "deal: a card is in no hand"};

#define COUNT(list) (sizeof(list) / sizeof((list)[0]))

struct text {
    char at[JUDGE_WORDS_MOST];
    size_t length;
};

static void put(struct text *text, const char *words) {
    size_t length = strlen(words);
    memcpy(text->at + text->length, words, length);
    text->length += length;
}

static void put_number(struct text *text, uint32_t number) {
    char digits[DECIMAL_DIGITS + 1] = {0};
    size_t at = DECIMAL_DIGITS;
    do {
        digits[--at] = (char)('0' + number % 10);
        number /= 10;
    } while (number > 0);
    put(text, digits + at);
}

static void put_words(struct text *text, const struct words *words, uint32_t place) {
    if (words->before) {
        put(text, words->before);
        put_number(text, place);
        if (words->cut && place >= words->cut) put(text, words->beyond);
    }
    put(text, words->behind);
}

/* The words at a place of a list, the last for every place behind it. */
static void put_listed(struct text *text, const char *const *list, size_t count, uint32_t place) {
    put(text, list[place < count ? place : count - 1]);
}

size_t judge_words(uint32_t refusal, uint32_t place, char *buffer, size_t length) {
    struct text text = {{0}, 0};
    if (refusal == 0 || refusal > LAST_REFUSAL || place > LAST_PLACE) return 0;
    if (refusal == 1 && place >= COUNT(SHORT_BUFFERS)) return 0;
    switch (refusal) {
    case 1: put_listed(&text, SHORT_BUFFERS, COUNT(SHORT_BUFFERS), place); break;
    case 3: put_listed(&text, NO_BOARD_OR_TABLE, COUNT(NO_BOARD_OR_TABLE), place); break;
    case 4: put_listed(&text, NO_DEAL, COUNT(NO_DEAL), place); break;
    default: put_words(&text, &WORDS[refusal], place);
    }
    if (text.length < length) memcpy(buffer, text.at, text.length + 1);
    return text.length;
}
