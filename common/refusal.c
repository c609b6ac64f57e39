#include "refusal.h"

#include "judge.h"
#include "judge_words.h"

void print_refusal(FILE *out, uint32_t number) {
    char words[JUDGE_WORDS_MOST];
    if (judge_words((uint32_t)judge_refusal_of(number), judge_place_of(number), words, sizeof words) > 0)
        fprintf(out, "%s\n", words);
    else
        fprintf(out, "unknown refusal %lu\n", (unsigned long)number);
}
