/* Tries include/judge_words.h as C99 and as C++: the words of each refusal from 1 to 33, written out here, numbers and places that are none, buffers about the
 * length of the words, and the longest words. */
#include "judge_words.h"

#include <stdio.h>
#include <string.h>

static int failed = 0;

static void expect(const char *what, long is, long due) {
    if (is == due) return;
    failed = 1;
    printf("%s: %ld, to be %ld\n", what, is, due);
}

struct due {
    uint32_t refusal, place;
    const char *words;
};

static const struct due DUE[] = {
    {1, 0, "answer under 7 bytes"},
    {1, 1, "list of revokes under 48 bytes"},
    {1, 2, "list of failures under 52 bytes"},
    {1, 3, "list of winners under 26 bytes"},
    {2, 0, "the record ends before a field is whole"},
    {3, 0, "board not 1 to 127"},
    {3, 1, "table not 1 to 511"},
    {4, 0, "deal: N does not have 13 cards"},
    {4, 1, "deal: E does not have 13 cards"},
    {4, 2, "deal: S does not have 13 cards"},
    {4, 3, "deal: W does not have 13 cards"},
    {4, 4, "deal: a card is in no hand"},
    {5, 0, "call 0: no such call"},
    {6, 7, "call 7: bid not above the last bid"},
    {7, 10, "call 10: double or redouble not allowed"},
    {8, 4, "call 4: the auction was over"},
    {9, 319, "after 319 calls: the auction is not over"},
    {10, 53, "play count 53: over 52, or cards for a passed-out board"},
    {10, 63, "play count 63 or more: over 52, or cards for a passed-out board"},
    {11, 51, "play 51: no such card"},
    {12, 7, "play 7: card dealt to another seat"},
    {13, 48, "after 48 cards: no claim, and not all 52 cards"},
    {14, 0, "after 0 cards: a claim cannot stand here"},
    {15, 14, "claim of 14: more tricks than are left"},
    {15, 15, "claim of 15 or more: more tricks than are left"},
    {16, 0, "a padding bit is 1, or a byte follows the record"},
    {17, 0, "a tally that is not as described"},
    {18, 0, "tallies of two boards"},
    {19, 0, "more than 128 results"},
    {20, 0, "a score that is not valid"},
    {21, 0, "a score that no result has"},
    {22, 0, "no room for the record"},
    {23, 51, "play 51: card already played"},
    {24, 510, "call 510: mark not followed by a bid at or below a last bid"},
    {25, 0, "play 0: exposed is no card in a defender's hand, or is faced already"},
    {26, 4, "play 4: choice of a lead not open, or no card after an exposure or choice"},
    {27, 0, "play 0: more than 40 exposures and choices"},
    {28, 0, "a fouled board, results of two deals"},
    {29, 0, "a board that is not 1 to 127, or was played already"},
    {30, 0, "more than 32 boards"},
    {31, 0, "passed out, more than 16 cards left, or not at a trick's end"},
    {32, 1022, "line 1022: text outside the subset, or its dealer, leader or Play tag is wrong"},
    {32, 1023, "line 1023 or later: text outside the subset, or its dealer, leader or Play tag is wrong"},
    {33, 511, "more than 511 calls and marks"},
};

static char words[JUDGE_WORDS_MOST], fives[JUDGE_WORDS_MOST];

static void clear(void) {
    memset(words, 5, sizeof words);
    memset(fives, 5, sizeof fives);
}

static void says(const struct due *due) {
    size_t length = strlen(due->words);
    clear();
    expect(due->words, (long)judge_words(due->refusal, due->place, words, length + 1), (long)length);
    expect("the words", strcmp(words, due->words), 0);
    expect("the bytes behind the zero", memcmp(words + length + 1, fives, sizeof words - length - 1), 0);
    clear();
    expect("a buffer without room for the zero", (long)judge_words(due->refusal, due->place, words, length), (long)length);
    expect("a null buffer", (long)judge_words(due->refusal, due->place, NULL, 0), (long)length);
    expect("a byte written of words without room", memcmp(words, fives, sizeof words), 0);
}

static void refuses(void) {
    static const uint32_t NO_REFUSALS[] = {0, 34, 35, 63, 64, 1024, 4194303, UINT32_MAX - 33, UINT32_MAX};
    static const uint32_t NO_PLACES[] = {1024, 1025, 65536, UINT32_MAX - 3, UINT32_MAX};
    clear();
    for (size_t k = 0; k < sizeof NO_REFUSALS / sizeof NO_REFUSALS[0]; k++)
        expect("no refusal", (long)judge_words(NO_REFUSALS[k], 0, words, sizeof words), 0);
    for (uint32_t refusal = 0; refusal <= 64; refusal++)
        for (size_t k = 0; k < sizeof NO_PLACES / sizeof NO_PLACES[0]; k++)
            expect("no place", (long)judge_words(refusal, NO_PLACES[k], words, sizeof words), 0);
    expect("a fifth buffer", (long)judge_words(1, 4, words, sizeof words), 0);
    expect("a byte written of no words", memcmp(words, fives, sizeof words), 0);
}

/* Every refusal has words at every place, and none are longer than is said. */
static void fits(void) {
    size_t longest = 0;
    for (uint32_t refusal = 1; refusal <= 33; refusal++)
        for (uint32_t place = 0; place <= (refusal == 1 ? 3 : 1023); place++) {
            size_t length = judge_words(refusal, place, NULL, 0);
            if (length > longest) longest = length;
            expect("no words", length == 0, 0);
        }
    expect("words that are too long", longest >= JUDGE_WORDS_MOST, 0);
}

int main(void) {
    for (size_t k = 0; k < sizeof DUE / sizeof DUE[0]; k++) says(&DUE[k]);
    refuses();
    fits();
    return failed;
}
