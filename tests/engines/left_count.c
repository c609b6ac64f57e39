/* The old fault as an operation of MPI, which the trial has to find: of a score that both sections have, the left section's count is kept, and with it the
 * number of comparisons. */
#include <string.h>

#include "operation.h"
#include "tally.h"

static unsigned count_of(const uint8_t *tally, int score) {
    for (unsigned place = 0; place < TALLY_PLACES && tally_count_at(tally, place) > 0; place++)
        if (tally_score_at(tally, place) == score) return tally_count_at(tally, place);
    return 0;
}

/* Adds a result so often, with the deal of a tally; what is refused leaves 398 zeros. */
static void add(uint8_t *sum, int score, unsigned count, const uint8_t *of) {
    uint8_t holders[TALLY_HOLDERS], more[TALLY_BYTES] = {0};
    tally_unpack_deal(of + 1, holders);
    for (; count > 0; count--) {
        if (tally_add(sum, TALLY_BYTES, score, holders, sizeof holders, more, sizeof more) != 0) memset(more, 0, sizeof more);
        memcpy(sum, more, sizeof more);
    }
}

static void merge_keeping_left(const uint8_t *left, uint8_t *right) {
    uint8_t sum[TALLY_BYTES];
    memcpy(sum, left, sizeof sum);
    for (unsigned place = 0; place < TALLY_PLACES && tally_count_at(right, place) > 0; place++) {
        int score = tally_score_at(right, place);
        if (count_of(left, score) == 0) add(sum, score, tally_count_at(right, place), right);
    }
    if (tally_board(right) == 0) memset(sum, 0, sizeof sum);
    memcpy(right, sum, sizeof sum);
}

void merge_blocks(void *in, void *inout, int *length, MPI_Datatype *type) {
    (void)type;
    for (int k = 0; k < *length; k++) merge_keeping_left((const uint8_t *)in + k * TALLY_BYTES, (uint8_t *)inout + k * TALLY_BYTES);
}
