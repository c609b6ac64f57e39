#include "words.h"

#include "letters.h"
#include "record.h"

enum { TRICKS = 13, SEATS_AT_TABLE = 4 };

static const char *const SUIT_WORDS[] = {"clubs", "diamonds", "hearts", "spades"};
static const char *const DOUBLINGS[] = {"", " doubled", " redoubled"};

void print_card(FILE *out, unsigned card) { fprintf(out, "%c%c", SUITS[judge_suit_of(card)], RANKS[judge_rank_of(card)]); }

static void print_revokes(FILE *out, const struct judged *judged) {
    unsigned count = judged->judgement.revokes;
    for (unsigned k = 0; k < count; k++) {
        struct judge_revoke r = judge_unpack_revoke(judged->revokes[k]);
        const char *before = k > 0 ? "; " : count > 1 ? "; revokes: " : "; revoke: ";
        fprintf(out, "%strick %u, %c, %s", before, r.trick, SEATS[r.seat], SUIT_WORDS[r.suit]);
    }
}

static void print_failures(FILE *out, const struct judged *judged) {
    unsigned count = judge_count_failures(judged->failures);
    const char *before = count > 1 ? "; failures to play a penalty card: " : "; failure to play a penalty card: ";
    for (unsigned k = 0; k < count; k++) {
        struct judge_failure f = judge_unpack_failure(judged->failures, k);
        fprintf(out, "%strick %u, %c plays ", k > 0 ? "; " : before, f.trick, SEATS[f.seat]);
        print_card(out, f.card);
    }
}

static void print_best_play(FILE *out, const struct bytes *record) {
    uint32_t tricks = judge_best_play(record->at, record->length);
    unsigned cards;
    cards_of(record->at, &cards);
    unsigned left = TRICKS - cards / SEATS_AT_TABLE;
    if (judge_is_refusal(tricks) || left == 0) return;
    fprintf(out, "; best play: %u of the %u trick%s left", (unsigned)tricks, left, left == 1 ? "" : "s");
}

void print_judgement(FILE *out, const struct bytes *record, const struct judged *judged) {
    const struct judge_judgement *j = &judged->judgement;
    fprintf(out, "Board %u table %u: ", j->board, j->table);
    if (j->level == 0) {
        fprintf(out, "passed out, NS %d\n", j->score);
        return;
    }
    fprintf(out, "%u%s%s by %c, ", j->level, STRAIN_WORDS[j->strain], DOUBLINGS[j->doubling], SEATS[j->declarer]);
    fprintf(out, "%u trick%s, ", j->tricks, j->tricks == 1 ? "" : "s");
    if (j->revokes > 0) fprintf(out, "%u after Law 64, ", j->tricks_after_64);
    fprintf(out, "NS %d", j->score);
    print_revokes(out, judged);
    print_failures(out, judged);
    print_best_play(out, record);
    fprintf(out, "\n");
}
