/* Tallies by board: results added to them, tallies merged into them. */
#ifndef TALLIES_H
#define TALLIES_H

#include <stddef.h>
#include <stdint.h>

#include "tally.h"

/* One more than the greatest board. */
enum { BOARDS = 128 };

/* The tally of each board; 398 zeros where it has none. */
struct tallies {
    uint8_t of[BOARDS][TALLY_BYTES];
    int met[BOARDS]; /* whether anything was added or merged */
};

/* No tallies, in memory of their own; null where there is none, which is then said. The caller frees them. */
struct tallies *new_tallies(void);

/* The empty tally of a board that was not met before. The board has to be 1 to 127. */
void meet_board(struct tallies *tallies, unsigned board);

/* Whether a tally is 398 zeros, as a refused merge leaves it. */
int is_zeros(const uint8_t tally[TALLY_BYTES]);

/* Whether some bytes are a tally: 0, or the refusal of what is none. */
uint32_t ask_tally(const uint8_t *bytes, size_t length);

/* Adds a result with the deal of its record; what tally_add returns. Where it is refused the tally becomes `mark_refused`'s. */
uint32_t add_result(struct tallies *tallies, unsigned board, int score, const uint8_t deal[TALLY_DEAL_BYTES]);

/* What stands for a board at which an addition was refused: its number and 397 bytes of 255, which is no tally. */
void mark_refused(uint8_t tally[TALLY_BYTES], unsigned board);

#endif
