/* A card or a judgement in the words that people read. */
#ifndef WORDS_H
#define WORDS_H

#include <stdio.h>

#include "input.h"
#include "judged.h"

/* `D7`, by its number. */
void print_card(FILE *out, unsigned card);

/* `Board 7 table 12: 4S doubled by N, 10 tricks, 9 after Law 64, NS -200; revoke: trick 5, N, hearts`, and a newline. Behind the revokes
 * stand the plays against Law 50: `; failure to play a penalty card: trick 6, E plays C8`; and last, for a claim at a trick's end with at most
 * sixteen cards left, `; best play: 3 of the 4 tricks left`. The record is the one that was accepted so. */
void print_judgement(FILE *out, const struct bytes *record, const struct judged *judged);

#endif
