/* What the library refused, in the words of judge_words.h. */
#ifndef REFUSAL_H
#define REFUSAL_H

#include <stdint.h>
#include <stdio.h>

/* `call 7: bid not above the last bid`, and a newline, for a number that the library returned. */
void print_refusal(FILE *out, uint32_t number);

#endif
