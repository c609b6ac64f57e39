/* Tries include/tally.h as C99 and as C++: the calls and helpers on bytes worked out by hand, null pointers, short buffers, and tally_reduce in
 * both orders. */
#include "tally.h"

#include <stdio.h>

static int failed = 0;

static void expect(const char *what, long is, long due) {
    if (is == due) return;
    failed = 1;
    printf("%s: %ld, to be %ld\n", what, is, due);
}

/* N all clubs, E diamonds, S hearts, W spades. */
static const uint8_t SUITS[TALLY_DEAL_BYTES] = {0x00, 0x00, 0x00, 0x15, 0x55, 0x55, 0x5A, 0xAA, 0xAA, 0xAB, 0xFF, 0xFF, 0xFF};

static uint8_t holders[TALLY_HOLDERS], a[TALLY_BYTES], b[TALLY_BYTES], out[TALLY_BYTES + 8], fives[TALLY_BYTES + 8];

/* Adds a score to a tally. */
static void add(uint8_t *tally, int32_t score) {
    expect("a score added", (long)tally_add(tally, TALLY_BYTES, score, holders, sizeof holders, out, sizeof out), 0);
    memcpy(tally, out, TALLY_BYTES);
}

/* Board 7: 450 and two of 420 in `a`, -50 in `b`. */
static void fill(void) {
    tally_unpack_deal(SUITS, holders);
    expect("a fresh tally", (long)tally_fresh(7, a, sizeof a), 0);
    expect("another", (long)tally_fresh(7, b, sizeof b), 0);
    add(a, 420);
    add(a, 450);
    add(a, 420);
    add(b, -50);
    memset(out, 0x55, sizeof out);
    memset(fives, 0x55, sizeof fives);
}

static void unpacks_a_deal(void) {
    tally_unpack_deal(SUITS, holders);
    for (unsigned card = 0; card < TALLY_HOLDERS; card++) expect("a holder", (long)holders[card], (long)(card / 13));
}

static void merges(void) {
    fill();
    expect("a merge", (long)tally_merge(a, sizeof a, b, sizeof b, out, sizeof out), 0);
    expect("the bytes behind it", memcmp(out + TALLY_BYTES, fives, 8), 0);
    expect("its board", (long)tally_board(out), 7);
    expect("its deal", memcmp(out + 1, SUITS, sizeof SUITS), 0);
    expect("the first score", tally_score_at(out, 0), 450);
    expect("the second score", tally_score_at(out, 1), 420);
    expect("its count", (long)tally_count_at(out, 1), 2);
    expect("the third score", tally_score_at(out, 2), -50);
    expect("the place behind", (long)tally_count_at(out, 3), 0);
}

static void asks(void) {
    uint8_t points[TALLY_POINTS_BYTES], cell[TALLY_CELL_BYTES];
    fill();
    tally_reduce(b, a);
    expect("matchpoints", (long)tally_matchpoints(a, sizeof a, 420, holders, sizeof holders, points, sizeof points), 0);
    struct tally_points p = tally_unpack_points(points);
    expect("NS", (long)p.ns, 3);
    expect("EW", (long)p.ew, 3);
    expect("a cell", (long)tally_cell(a, sizeof a, 450, holders, sizeof holders, cell, sizeof cell), 0);
    expect("played", (long)tally_kind_of(cell), TALLY_PLAYED);
    expect("its percentage", (long)tally_percentage_of(cell), 100);
    expect("an award", (long)tally_award(60, cell, sizeof cell), 0);
    expect("awarded", (long)tally_kind_of(cell), TALLY_AWARDED);
    expect("its percentage", (long)tally_percentage_of(cell), 60);
    expect("a cell alone", (long)tally_cell(b, sizeof b, -50, holders, sizeof holders, cell, sizeof cell), 0);
    expect("alone", (long)tally_kind_of(cell), TALLY_ALONE);
}

static void shares(void) {
    uint8_t bytes[TALLY_SHARES_BYTES];
    fill();
    expect("shares", (long)tally_hundredths(a, sizeof a, 420, holders, sizeof holders, bytes, sizeof bytes), 0);
    struct tally_shares s = tally_unpack_shares(bytes);
    expect("of NS: 1 of 4", (long)s.ns, 2500);
    expect("of EW", (long)s.ew, 7500);
    expect("shares alone", (long)tally_hundredths(b, sizeof b, -50, holders, sizeof holders, bytes, sizeof bytes), 0);
    s = tally_unpack_shares(bytes);
    expect("of NS alone", (long)s.ns, TALLY_ALONE_SHARE);
    expect("of EW alone", (long)s.ew, TALLY_ALONE_SHARE);
    expect("a buffer of 3", (long)tally_hundredths(a, sizeof a, 420, holders, sizeof holders, bytes, 3), 1024);
    expect("no such score", (long)tally_hundredths(a, sizeof a, 430, holders, sizeof holders, bytes, sizeof bytes), 21 * 1024);
    expect("null slices", (long)tally_hundredths(NULL, 0, 420, NULL, 0, bytes, sizeof bytes), 17 * 1024);
}

static void reduces(void) {
    uint8_t first[TALLY_BYTES], b2[TALLY_BYTES], zeros[TALLY_BYTES] = {0};
    fill();
    expect("a tally of board 8", (long)tally_fresh(8, b2, sizeof b2), 0);
    memcpy(first, b, sizeof first);
    tally_reduce(a, first);
    tally_reduce(b, a);
    expect("the same in both orders", memcmp(a, first, sizeof a), 0);
    expect("another board", (long)tally_fresh(8, b, sizeof b), 0);
    expect("an empty tally merged", (long)tally_merge_into(b, b2), 0);
    expect("two boards merged", (long)tally_merge_into(b, a), 18 * 1024);
    expect("zeros for a refusal", memcmp(a, zeros, sizeof a), 0);
    tally_reduce(first, a);
    expect("which absorb", memcmp(a, zeros, sizeof a), 0);
    tally_reduce(a, first);
    expect("on either side", memcmp(first, zeros, sizeof first), 0);
}

static void refuses(void) {
    fill();
    expect("a buffer of 397", (long)tally_merge(a, sizeof a, b, sizeof b, out, 397), 1024);
    expect("a tally of 397", (long)tally_merge(a, 397, b, sizeof b, out, sizeof out), 17 * 1024);
    expect("board 128", (long)tally_fresh(128, out, sizeof out), 3 * 1024);
    expect("421", (long)tally_add(a, sizeof a, 421, holders, sizeof holders, out, sizeof out), 20 * 1024);
    expect("51 holders", (long)tally_add(a, sizeof a, 420, holders, 51, out, sizeof out), 4 * 1024 + 4);
    expect("an award of 61", (long)tally_award(61, out, sizeof out), 20 * 1024);
    expect("null tallies", (long)tally_merge(NULL, 0, NULL, 0, out, sizeof out), 17 * 1024);
    expect("null holders", (long)tally_add(a, sizeof a, 420, NULL, 0, out, sizeof out), 4 * 1024 + 4);
    expect("a null buffer", (long)tally_merge(a, sizeof a, b, sizeof b, NULL, 0), 1024);
    holders[0] = 1, holders[13] = 0;
    expect("another deal", (long)tally_add(a, sizeof a, 420, holders, sizeof holders, out, sizeof out), 28 * 1024);
    expect("the buffer after refusals", memcmp(out, fives, sizeof out), 0);
    expect("a refusal", tally_refusal_of(4 * 1024 + 4), TALLY_NOT_THIRTEEN_CARDS);
    expect("its place", (long)tally_place_of(4 * 1024 + 4), 4);
}

static void has_a_version(void) {
    expect("the version's first number", TALLY_VERSION_MAJOR, 1);
    expect("the version's second number", TALLY_VERSION_MINOR >= 1, 1);
}

int main(void) {
    has_a_version();
    unpacks_a_deal();
    merges();
    asks();
    shares();
    reduces();
    refuses();
    return failed;
}
