/* The sheet of a board, row by row. */
#ifndef SHEET_H
#define SHEET_H

#include <stdint.h>
#include <stdio.h>

#include "tally.h"

/* A row: a score, how many results have it, and the matchpoints and the shares of one of them. */
struct row {
    int score;
    unsigned count;
    struct tally_points points;
    struct tally_shares shares;
};

/* How many rows a tally has. */
unsigned count_rows(const uint8_t tally[TALLY_BYTES]);

/* Row 0, 1, .. of a tally, highest score first; what the library returns, which is 0 for every row of a tally. */
uint32_t take_row(const uint8_t tally[TALLY_BYTES], unsigned place, struct row *row);

/* `BOARD 7`, a header and the rows; `BOARD 7 refused` where the tally is 398 zeros. */
void print_board(FILE *out, unsigned board, const uint8_t tally[TALLY_BYTES]);

#endif
