#include "play.h"

#include "letters.h"
#include "record.h"
#include "words.h"

enum { CARDS_OF_TRICK = 4 };

/* An exposure as ?C7 or !C7, a choice as +C or -C. */
static void print_code(FILE *out, unsigned code, struct bits *bits) {
    if (code == JUDGE_EXPOSED) {
        unsigned card = take_bits(bits, CODE_BITS);
        fprintf(out, " %c", take_bits(bits, EXPOSURE_BITS) ? '!' : '?');
        print_card(out, card);
    } else {
        const char *kind = take_bits(bits, CHOICE_KIND_BITS) ? " -" : " +";
        fprintf(out, "%s%c", kind, SUITS[take_bits(bits, SUIT_BITS)]);
    }
}

/* The next card, with the exposures and choices before it. */
static void print_next(FILE *out, struct bits *bits) {
    unsigned number = take_bits(bits, CODE_BITS);
    for (; number >= JUDGE_EXPOSED; number = take_bits(bits, CODE_BITS)) print_code(out, number, bits);
    fprintf(out, " ");
    print_card(out, number);
}

void print_play(FILE *out, const uint8_t *record, const struct judged *judged) {
    unsigned cards, leader = (judged->judgement.declarer + 1) % 4;
    struct bits bits = cards_of(record, &cards);
    for (unsigned k = 0; k < cards; k++) {
        if (k % CARDS_OF_TRICK == 0) fprintf(out, "%4u %c:", k / CARDS_OF_TRICK + 1, SEATS[leader]);
        print_next(out, &bits);
        if (k % CARDS_OF_TRICK < CARDS_OF_TRICK - 1) continue;
        struct judge_trick trick = judge_unpack_trick(judged->winners, k / CARDS_OF_TRICK + 1);
        fprintf(out, ", %c wins with ", SEATS[trick.winner]);
        print_card(out, trick.card);
        fprintf(out, "\n");
        leader = trick.winner;
    }
    if (cards % CARDS_OF_TRICK > 0) fprintf(out, ", not complete\n");
}
