#include "tallies.h"

#include <stdlib.h>
#include <string.h>

#include "input.h"

struct tallies *new_tallies(void) {
    struct tallies *tallies = calloc(1, sizeof *tallies);
    if (!tallies) fprintf(stderr, "%s\n", NO_MEMORY);
    return tallies;
}

void meet_board(struct tallies *tallies, unsigned board) {
    if (tallies->met[board]) return;
    tallies->met[board] = 1;
    tally_fresh(board, tallies->of[board], TALLY_BYTES);
}

int is_zeros(const uint8_t tally[TALLY_BYTES]) {
    for (size_t k = 0; k < TALLY_BYTES; k++)
        if (tally[k] != 0) return 0;
    return 1;
}

uint32_t ask_tally(const uint8_t *bytes, size_t length) {
    enum { NO_SCORE = 5 };
    uint8_t points[TALLY_POINTS_BYTES];
    /* No call asks this alone. What is no tally is refused before a score that is not valid. */
    uint32_t number = tally_matchpoints(bytes, length, NO_SCORE, NULL, 0, points, sizeof points);
    return tally_refusal_of(number) == TALLY_SCORE_NOT_VALID ? 0 : number;
}

void mark_refused(uint8_t tally[TALLY_BYTES], unsigned board) {
    memset(tally, 255, TALLY_BYTES);
    tally[0] = (uint8_t)board;
}

uint32_t add_result(struct tallies *tallies, unsigned board, int score, const uint8_t deal[TALLY_DEAL_BYTES]) {
    uint8_t holders[TALLY_HOLDERS], more[TALLY_BYTES];
    meet_board(tallies, board);
    tally_unpack_deal(deal, holders);
    uint32_t number = tally_add(tallies->of[board], TALLY_BYTES, score, holders, sizeof holders, more, sizeof more);
    if (number == 0)
        memcpy(tallies->of[board], more, sizeof more);
    else
        mark_refused(tallies->of[board], board);
    return number;
}
