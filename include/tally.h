/* Matchpoint tallies of duplicate bridge in bytes, for C99 and C++.
 *
 * The library has seven functions on tallies: fresh ones, a result added, two merged, matchpoints, shares in hundredths of a per cent, and cells of a page of
 * results.
 * docs/RULES.md, 11, has the rules and the layout of the 398 bytes.
 *
 * Proved, of the library's source: what this header says that they return, write and leave, for every argument and every buffer; that every
 * tree of these calls leaves the bytes of the tally that the rules give; and that merging may be declared commutative and associative, see
 * tally_reduce. Not proved, and tried by tests: the compiler's work on that source, and all else in this header, which is plain C. */
#ifndef TALLY_H
#define TALLY_H

#include <stddef.h>
#include <stdint.h>
#include <string.h>

/* The version of this interface. What a caller can see by the arguments that it gave before raises the first number: a changed signature or size, another
 * answer, number or place, other bytes written, also where no signature changes. A function, a helper, a name or a refusal more, for what no caller could ask
 * before, raises the second. */
#define TALLY_VERSION_MAJOR 1
#define TALLY_VERSION_MINOR 1

#ifdef __cplusplus
extern "C" {
#endif

/* A tally is 398 bytes, always: the board; the deal in 13 bytes, two bits a card from card 0 on, the most significant first, as in a table
 * record, zero where there is no result; 128 scores of two bytes, two's complement, the most significant first; 128 counts of a byte. The
 * points are four bytes, two for NS and two for EW; a cell is nine. */
enum { TALLY_BYTES = 398, TALLY_POINTS_BYTES = 4, TALLY_CELL_BYTES = 9, TALLY_DEAL_BYTES = 13, TALLY_PLACES = 128, TALLY_HOLDERS = 52 };
enum { TALLY_SHARES_BYTES = 4, TALLY_ALONE_SHARE = 65535 };

/* Each function returns 0 if the call is accepted, and then has written its bytes at the front of the last buffer; those past them stay as
 * they were. Otherwise it returns refusal * 1024 + place, and no byte of the buffer is changed. What is lent as const is never changed.
 * Nothing is kept between calls, so calls may run at the same time.
 *
 * No tally, no number and no length is trusted. What C has to see to is this, and nothing else:
 *   - each pointer has as many bytes as the length beside it says, the last buffer writable;
 *   - no two of the slices overlap.
 * A null pointer beside the length 0 meets both.
 *
 * One refusal is returned, the first that applies: 1 for a last buffer that is too short; then the order beside each function. `holders`
 * has the seat that was dealt card 0, 1, .. 51. */

/* The empty tally of a board: 3 for a board that is not 1 to 127. */
uint32_t tally_fresh(uint32_t board, uint8_t *out, size_t out_len);

/* The tally with one result more, a score from NS with the deal that it was played on: 17, 20 for any score that is not valid, 4, 28,
 * 19. */
uint32_t tally_add(const uint8_t *tally, size_t tally_len, int32_t score, const uint8_t *holders, size_t holders_len, uint8_t *out,
                   size_t out_len);

/* The tally of the results of both: 17 for either, 18, 28, 19. */
uint32_t tally_merge(const uint8_t *a, size_t a_len, const uint8_t *b, size_t b_len, uint8_t *out, size_t out_len);

/* Law 78A's matchpoints of one result with that score, four bytes: 17, 20, 4, 28, 21. */
uint32_t tally_matchpoints(const uint8_t *tally, size_t tally_len, int32_t score, const uint8_t *holders, size_t holders_len,
                           uint8_t *points, size_t points_len);

/* The cell of an awarded result, nine bytes: 20 for a percentage that is not 60, 50 or 40. It enters no tally. */
uint32_t tally_award(uint32_t percent, uint8_t *cell, size_t cell_len);

/* The cell of one result with that score, nine bytes: 17, 20, 4, 28, 21. */
uint32_t tally_cell(const uint8_t *tally, size_t tally_len, int32_t score, const uint8_t *holders, size_t holders_len, uint8_t *cell,
                    size_t cell_len);

/* The shares of both sides in one result with that score, four bytes, two for NS and two for EW: hundredths of a per cent of the matchpoints that a result can
 * have, 0 to 10000, each rounded half up from the exact fraction; TALLY_ALONE_SHARE each where the board has one result: 17, 20, 4, 28, 21. */
uint32_t tally_hundredths(const uint8_t *tally, size_t tally_len, int32_t score, const uint8_t *holders, size_t holders_len,
                          uint8_t *shares, size_t shares_len);

/* The refusals by number; each but 4 has place 0. */
enum tally_refusal {
    TALLY_ACCEPTED = 0,
    TALLY_BUFFER_TOO_SHORT = 1,    /* the last buffer is under 398, 4 or 9 bytes, as many as are written */
    TALLY_NO_BOARD = 3,            /* a fresh tally of a board that is not 1 to 127 */
    TALLY_NOT_THIRTEEN_CARDS = 4,  /* Law 1; place: the first such seat; 4: not 52 holders from 0 to 3 */
    TALLY_MALFORMED = 17,          /* a tally that is not 398 bytes long, or not as described */
    TALLY_TWO_BOARDS = 18,         /* tallies of two boards merged */
    TALLY_TOO_MANY_RESULTS = 19,   /* more than 128 results */
    TALLY_SCORE_NOT_VALID = 20,    /* no multiple of 10 from -7600 to 7600; an award other than 60, 50 or 40 */
    TALLY_SCORE_NOT_IN_TALLY = 21, /* no result has the score */
    TALLY_FOULED_BOARD = 28        /* Law 87: results of two deals */
};

/* The two parts of a refusal. */
static inline enum tally_refusal tally_refusal_of(uint32_t number) { return (enum tally_refusal)(number / 1024u); }
static inline unsigned tally_place_of(uint32_t number) { return (unsigned)(number % 1024u); }

/* Merges the block `a` into the block `inout`, both of 398 bytes and apart: `inout` becomes the merge of the two, and where that is refused
 * 398 zeros. Returns what tally_merge returned. */
static inline uint32_t tally_merge_into(const uint8_t *a, uint8_t *inout) {
    uint8_t merged[TALLY_BYTES];
    uint32_t number = tally_merge(a, TALLY_BYTES, inout, TALLY_BYTES, merged, sizeof merged);
    if (number != 0) memset(merged, 0, sizeof merged);
    memcpy(inout, merged, sizeof merged);
    return number;
}

/* The same in the shape that reduction libraries ask for: inout = a op inout.
 *
 * What lets one declare it commutative and associative is the theorem `reduction` of crates/promises/proofs/Reduction.antt, stated in
 * crates/promises/specs/Reduction.antt: for all byte strings, tallies or not, in any order and any bracketing, the bytes left are the same
 * (`commutes`, `associates`), and 398 zeros absorb (`zeros-first`, `zeros-second`). So a refused merge cannot be lost on the way: the
 * whole reduction is 398 zeros. The empty tally of the board changes nothing (`empty`). */
static inline void tally_reduce(const uint8_t *a, uint8_t *inout) { tally_merge_into(a, inout); }

/* The board of a tally. */
static inline unsigned tally_board(const uint8_t tally[TALLY_BYTES]) { return tally[0]; }

/* The seat that was dealt each card, from the thirteen bytes of a deal: those behind the first of a tally, or behind the first two of a
 * record. */
static inline void tally_unpack_deal(const uint8_t deal[TALLY_DEAL_BYTES], uint8_t holders[TALLY_HOLDERS]) {
    for (unsigned card = 0; card < TALLY_HOLDERS; card++) holders[card] = (uint8_t)(deal[card / 4] >> (6 - 2 * (card % 4)) & 3u);
}

/* The score and the number of results at a place of a tally, from 0 to 127; a count of 0 is an unused place. */
static inline unsigned tally_count_at(const uint8_t tally[TALLY_BYTES], unsigned place) { return tally[270 + place]; }
static inline int tally_score_at(const uint8_t tally[TALLY_BYTES], unsigned place) {
    unsigned word = (unsigned)tally[14 + 2 * place] << 8 | tally[15 + 2 * place];
    return (int)word - (word >= 0x8000u ? 0x10000 : 0);
}

struct tally_points {
    unsigned ns;
    unsigned ew;
};

/* The four bytes of matchpoints, apart. */
static inline struct tally_points tally_unpack_points(const uint8_t points[TALLY_POINTS_BYTES]) {
    struct tally_points p;
    p.ns = (unsigned)points[0] << 8 | points[1];
    p.ew = (unsigned)points[2] << 8 | points[3];
    return p;
}

struct tally_shares {
    unsigned ns; /* hundredths of a per cent, or TALLY_ALONE_SHARE */
    unsigned ew;
};

/* The four bytes of shares, apart. */
static inline struct tally_shares tally_unpack_shares(const uint8_t shares[TALLY_SHARES_BYTES]) {
    struct tally_shares s;
    s.ns = (unsigned)shares[0] << 8 | shares[1];
    s.ew = (unsigned)shares[2] << 8 | shares[3];
    return s;
}

enum tally_cell_kind { TALLY_PLAYED = 0, TALLY_AWARDED = 1, TALLY_ALONE = 2 };

/* What a cell is, and the percentage for NS of a cell that is not alone, where a double is IEEE 754's binary64. */
static inline enum tally_cell_kind tally_kind_of(const uint8_t cell[TALLY_CELL_BYTES]) { return (enum tally_cell_kind)cell[0]; }
static inline double tally_percentage_of(const uint8_t cell[TALLY_CELL_BYTES]) {
    uint64_t bits = 0;
    double percentage;
    for (unsigned k = 1; k < TALLY_CELL_BYTES; k++) bits = bits << 8 | cell[k];
    memcpy(&percentage, &bits, sizeof percentage);
    return percentage;
}

#ifdef __cplusplus
}
#endif

#endif
