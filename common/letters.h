/* The letters of seats, suits and ranks, by their numbers, for those who print and those who read. */
#ifndef LETTERS_H
#define LETTERS_H

/* N, E, S and W; C, D, H and S; 2 to 9, T, J, Q, K and A. */
extern const char SEATS[];
extern const char SUITS[];
extern const char RANKS[];

enum { STRAINS = 5 };

/* C, D, H, S or NT. */
extern const char *const STRAIN_WORDS[STRAINS];

/* The number of a letter, -1 where it is none of them. */
int number_of(const char *letters, char letter);

#endif
