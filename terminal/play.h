/* The play of an accepted record, trick by trick. */
#ifndef PLAY_H
#define PLAY_H

#include <stdint.h>
#include <stdio.h>

#include "judged.h"

/* A line for each trick: its number, who led to it, the cards in order of play, and who won with which card:
 * `   3 N: H2 C2 H4 S5, E wins with C2`; of a last trick without four cards `, not complete`. Exposures and choices stand before the card
 * as samples/README.md writes them. The record is the one that was accepted so. */
void print_play(FILE *out, const uint8_t *record, const struct judged *judged);

#endif
