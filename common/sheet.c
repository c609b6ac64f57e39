#include "sheet.h"

#include <stdlib.h>

#include "tallies.h"

unsigned count_rows(const uint8_t tally[TALLY_BYTES]) {
    unsigned place = 0;
    while (place < TALLY_PLACES && tally_count_at(tally, place) > 0) place++;
    return place;
}

uint32_t take_row(const uint8_t tally[TALLY_BYTES], unsigned place, struct row *row) {
    uint8_t holders[TALLY_HOLDERS], points[TALLY_POINTS_BYTES] = {0}, shares[TALLY_SHARES_BYTES] = {0};
    tally_unpack_deal(tally + 1, holders);
    row->score = tally_score_at(tally, place);
    row->count = tally_count_at(tally, place);
    uint32_t number = tally_matchpoints(tally, TALLY_BYTES, row->score, holders, sizeof holders, points, sizeof points);
    if (number == 0) number = tally_hundredths(tally, TALLY_BYTES, row->score, holders, sizeof holders, shares, sizeof shares);
    row->points = tally_unpack_points(points);
    row->shares = tally_unpack_shares(shares);
    return number;
}

/* A percentage with two decimals; ALONE where there is no other result. */
static void print_share(FILE *out, unsigned hundredths) {
    if (hundredths == TALLY_ALONE_SHARE)
        fprintf(out, " ALONE");
    else
        fprintf(out, " %u.%02u", hundredths / 100u, hundredths % 100u);
}

static void print_row(FILE *out, const struct row *row) {
    fprintf(out, "%d %u %u %u", row->score, row->count, row->points.ns, row->points.ew);
    print_share(out, row->shares.ns);
    print_share(out, row->shares.ew);
    fprintf(out, "\n");
}

void print_board(FILE *out, unsigned board, const uint8_t tally[TALLY_BYTES]) {
    struct row row;
    if (is_zeros(tally)) {
        fprintf(out, "BOARD %u refused\n", board);
        return;
    }
    fprintf(out, "BOARD %u\nNS-SCORE COUNT NS-MP EW-MP NS-%% EW-%%\n", board);
    for (unsigned place = 0; place < count_rows(tally); place++) {
        /* That no row is refused is proved: the tally is the library's, and score and deal are its own. */
        if (take_row(tally, place, &row) != 0) abort();
        print_row(out, &row);
    }
}
