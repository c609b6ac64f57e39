/* Tries include/judge.h as C99 and as C++: the helpers on bytes worked out by hand, null pointers, short buffers, the order of the
 * checks, the passed-out board of docs/RULES.md, judged, written and read, a record with a penalty card, best play from an ending, slips and Law 2. */
#include "judge.h"

#include <stdio.h>
#include <string.h>

static int failed = 0;

static void expect(const char *what, long is, long due) {
    if (is == due) return;
    failed = 1;
    printf("%s: %ld, to be %ld\n", what, is, due);
}

static void expect_unpacked(const uint8_t bytes[JUDGE_ANSWER_BYTES], const struct judge_judgement due) {
    const struct judge_judgement j = judge_unpack(bytes);
    expect("board", (long)j.board, (long)due.board);
    expect("table", (long)j.table, (long)due.table);
    expect("level", (long)j.level, (long)due.level);
    expect("strain", (long)j.strain, (long)due.strain);
    expect("doubling", (long)j.doubling, (long)due.doubling);
    expect("declarer", (long)j.declarer, (long)due.declarer);
    expect("tricks", (long)j.tricks, (long)due.tricks);
    expect("tricks after Law 64", (long)j.tricks_after_64, (long)due.tricks_after_64);
    expect("revokes", (long)j.revokes, (long)due.revokes);
    expect("score", j.score, due.score);
}

/* Board 7 table 12: 4S doubled by N, 10 tricks, 9 after Law 64, NS -200, one revoke:
 * 0000111 000001100 100 011 01 00 1010 1001 000001 1111111100111000 */
static void unpacks_the_answer(void) {
    const uint8_t bytes[JUDGE_ANSWER_BYTES] = {0x0E, 0x0C, 0x8D, 0x2A, 0x41, 0xFF, 0x38};
    const struct judge_judgement due = {7, 12, 4, 3, 1, 0, 10, 9, 1, -200};
    expect_unpacked(bytes, due);
}

/* Board 127 table 511: 7NT redoubled by W, 13 tricks, 0 after, 48 revokes, NS 7600:
 * 1111111 111111111 111 100 10 11 1101 0000 110000 0001110110110000 */
static void unpacks_the_largest(void) {
    const uint8_t bytes[JUDGE_ANSWER_BYTES] = {0xFF, 0xFF, 0xF2, 0xF4, 0x30, 0x1D, 0xB0};
    const struct judge_judgement due = {127, 511, 7, 4, 2, 3, 13, 0, 48, 7600};
    expect_unpacked(bytes, due);
}

/* Trick 5, N, hearts: 0101 00 10; trick 12, W, spades: 1100 11 11. */
static void unpacks_a_revoke(void) {
    struct judge_revoke r = judge_unpack_revoke(0x52);
    expect("trick", (long)r.trick, 5);
    expect("seat", (long)r.seat, 0);
    expect("suit", (long)r.suit, 2);
    r = judge_unpack_revoke(0xCF);
    expect("trick", (long)r.trick, 12);
    expect("seat", (long)r.seat, 3);
    expect("suit", (long)r.suit, 3);
}

/* Trick 1, E, D3: 0001 01 001110 0000; trick 12, W, SA: 1100 11 110011 0000; trick 8, N, C2: 1000 00 000000 0000. */
static void unpacks_failures(void) {
    uint8_t bytes[JUDGE_FAILURE_BYTES] = {0x14, 0xE0, 0xCF, 0x30};
    struct judge_failure f = judge_unpack_failure(bytes, 0);
    expect("trick", (long)f.trick, 1);
    expect("seat", (long)f.seat, 1);
    expect("card", (long)f.card, 14);
    f = judge_unpack_failure(bytes, 1);
    expect("trick", (long)f.trick, 12);
    expect("seat", (long)f.seat, 3);
    expect("card", (long)f.card, 51);
    f = judge_unpack_failure(bytes, 2);
    expect("trick behind the last entry", (long)f.trick, 0);
    expect("two failures", (long)judge_count_failures(bytes), 2);
    for (size_t k = 0; k < 26; k++) bytes[2 * k] = 0x80;
    expect("26 failures", (long)judge_count_failures(bytes), 26);
    expect("trick of the last", (long)judge_unpack_failure(bytes, 25).trick, 8);
    memset(bytes, 0, sizeof bytes);
    expect("no failure", (long)judge_count_failures(bytes), 0);
}

/* Trick 1 by E with DA, trick 13 by S with C2. */
static void unpacks_tricks(void) {
    uint8_t bytes[JUDGE_WINNER_BYTES] = {1, 25};
    struct judge_trick t = judge_unpack_trick(bytes, 1);
    expect("winner", (long)t.winner, 1);
    expect("card", (long)t.card, 25);
    bytes[24] = 2;
    t = judge_unpack_trick(bytes, 13);
    expect("last winner", (long)t.winner, 2);
    expect("last card", (long)t.card, 0);
}

/* Bids and cards by docs/RULES.md, 2, there and back, and what is none. */
static void numbers_the_game(void) {
    unsigned code = 3;
    for (unsigned level = 1; level <= 7; level++)
        for (unsigned strain = 0; strain <= 4; strain++, code++) {
            expect("a bid", (long)judge_call(level, strain), (long)code);
            expect("its level", (long)judge_level_of(code), (long)level);
            expect("its strain", (long)judge_strain_of(code), (long)strain);
        }
    expect("7 notrump", (long)judge_call(7, 4), 37);
    for (unsigned card = 0; card < 52; card++) {
        expect("a card", (long)judge_card(card / 13, card % 13), (long)card);
        expect("its suit", (long)judge_suit_of(card), (long)(card / 13));
        expect("its rank", (long)judge_rank_of(card), (long)(card % 13));
    }
    static const unsigned NO_LEVELS[] = {0, 8, 63, UINT32_MAX}, NO_STRAINS[] = {5, 63, UINT32_MAX};
    for (size_t k = 0; k < 4; k++) expect("no level", (long)judge_call(NO_LEVELS[k], 0), 63);
    for (size_t k = 0; k < 3; k++) expect("no strain", (long)judge_call(1, NO_STRAINS[k]), 63);
    static const unsigned NO_BIDS[] = {0, 1, 2, 38, 63, UINT32_MAX};
    for (size_t k = 0; k < 6; k++) {
        expect("the level of no bid", (long)judge_level_of(NO_BIDS[k]), 0);
        expect("the strain of no bid", (long)judge_strain_of(NO_BIDS[k]), 63);
    }
    expect("no suit", (long)judge_card(4, 0), 63);
    expect("the greatest suit", (long)judge_card(UINT32_MAX, 0), 63);
    expect("no rank", (long)judge_card(0, 13), 63);
    expect("the suit of no card", (long)judge_suit_of(52), 63);
    expect("the rank of no card", (long)judge_rank_of(UINT32_MAX), 63);
    expect("the mark", JUDGE_MARK, 38);
    expect("an exposure", JUDGE_EXPOSED, 52);
    expect("a choice", JUDGE_CHOICE, 53);
    expect("pass, double, redouble", 100 * JUDGE_PASS + 10 * JUDGE_DOUBLE + JUDGE_REDOUBLE, 12);
}

static void unpacks_a_number(void) {
    expect("refusal of 6151", judge_refusal_of(6151), JUDGE_INSUFFICIENT_BID);
    expect("place of 6151", (long)judge_place_of(6151), 7);
    expect("a low bid", JUDGE_INSUFFICIENT_BID, 6);
    expect("cards missing", JUDGE_PLAY_UNFINISHED, 13);
    expect("the last refusal of the table", JUDGE_NOT_PADDING, 16);
    expect("another name of 6", JUDGE_BID_NOT_ABOVE, 6);
    expect("another name of 13", JUDGE_CARDS_MISSING, 13);
    expect("another name of 16", JUDGE_NOT_ENDED, 16);
    expect("no room", JUDGE_NO_ROOM_FOR_RECORD, 22);
    expect("a card again", JUDGE_CARD_ALREADY_PLAYED, 23);
    expect("a wrong mark", JUDGE_MARK_NOT_ALLOWED, 24);
    expect("a wrong exposure", JUDGE_EXPOSURE_NOT_ALLOWED, 25);
    expect("a choice that is not open", JUDGE_CHOICE_NOT_OPEN, 26);
    expect("too many exposures and choices", JUDGE_TOO_MANY_CODES, 27);
    expect("no ending", JUDGE_NO_ENDING, 31);
    expect("outside the subset", JUDGE_OUTSIDE_SUBSET, 32);
    expect("too many calls", JUDGE_TOO_MANY_CALLS, 33);
    expect("the list of revokes", JUDGE_REVOKE_BYTES, 48);
    expect("the list of failures", JUDGE_FAILURE_BYTES, 52);
    expect("the list of winners", JUDGE_WINNER_BYTES, 26);
    expect("the longest record", JUDGE_RECORD_MOST, 505);
    expect("a length is no refusal", judge_is_refusal(1023), 0);
    expect("a refusal", judge_is_refusal(3 * 1024), 1);
    expect("the version's first number", JUDGE_VERSION_MAJOR, 4);
    expect("the version's second number", JUDGE_VERSION_MINOR >= 3, 1);
}

/* N all clubs, E diamonds, S hearts, W spades, four passes; and a byte that is no part of it. */
static const uint8_t PASSED_OUT[21] = {0x02, 0x01, 0x00, 0x00, 0x00, 0x15, 0x55, 0x55, 0x5A, 0xAA, 0xAA,
                                       0xAB, 0xFF, 0xFF, 0xFF, 0x02, 0x00, 0x00, 0x00, 0x00, 0x00};
static const uint8_t PASSED_OUT_ANSWER[7] = {0x02, 0x01, 0, 0, 0, 0, 0};

static const uint8_t ZEROS[52] = {0};

static uint8_t answer[40], revokes[80], failures[80], winners[40], all_fives[80];

static void fill(void) {
    memset(answer, 0x55, sizeof answer);
    memset(revokes, 0x55, sizeof revokes);
    memset(failures, 0x55, sizeof failures);
    memset(winners, 0x55, sizeof winners);
    memset(all_fives, 0x55, sizeof all_fives);
}

static void expect_untouched(const char *what) {
    expect(what, memcmp(answer, all_fives, sizeof answer) != 0, 0);
    expect(what, memcmp(revokes, all_fives, sizeof revokes) != 0, 0);
    expect(what, memcmp(failures, all_fives, sizeof failures) != 0, 0);
    expect(what, memcmp(winners, all_fives, sizeof winners) != 0, 0);
}

/* Judges a record with the four buffers, of so many bytes each. */
static long judged(const uint8_t *bytes, size_t length, size_t answer_len, size_t revokes_len, size_t failures_len, size_t winners_len) {
    return (long)judge_record(bytes, length, answer, answer_len, revokes, revokes_len, failures, failures_len, winners, winners_len);
}

/* The same with all bytes of the buffers. */
static long judged_whole(const uint8_t *bytes, size_t length) { return judged(bytes, length, 40, 80, 80, 40); }

static void judges_the_example(void) {
    fill();
    expect("the example", judged_whole(PASSED_OUT, 20), 0);
    expect("its answer", memcmp(answer, PASSED_OUT_ANSWER, 7), 0);
    expect("the bytes after it", memcmp(answer + 7, all_fives, 33), 0);
    expect("its list", memcmp(revokes, all_fives, 80), 0);
    expect("its failures", memcmp(failures, ZEROS, 52), 0);
    expect("the bytes after them", memcmp(failures + 52, all_fives, 28), 0);
    expect("its winners", memcmp(winners, all_fives, 40), 0);
    fill();
    expect("one byte less", judged_whole(PASSED_OUT, 19), 2 * 1024);
    expect("one byte more", judged_whole(PASSED_OUT, 21), 16 * 1024);
    expect("no byte", judged_whole(PASSED_OUT, 0), 2 * 1024);
    expect_untouched("buffers after a refusal");
}

/* One club by N, E to lead. D4 is faced by accident, and D3 led in its place, against Law 50C; then S, W, N, and a claim of 12 of the 12 tricks left:
 * 000000100 000011 000000 000000 000000 000100 110100 001111 0 001110 011010 100111 000000 1 1100 0000000 after the deal. N ruffs: 20 + 50 + 6 x 20. */
static const uint8_t LOW_CARD[26] = {0x02, 0x01, 0x00, 0x00, 0x00, 0x15, 0x55, 0x55, 0x5A, 0xAA, 0xAA, 0xAB, 0xFF,
                                     0xFF, 0xFF, 0x02, 0x06, 0x00, 0x00, 0x09, 0xA1, 0xE3, 0x9A, 0x9C, 0x0E, 0x00};
/* Trick 1, E, D3: 0001 01 001110 0000. */
static const uint8_t LOW_CARD_FAILURE[2] = {0x14, 0xE0};

static void judges_a_failure(void) {
    fill();
    expect("a low card", judged(LOW_CARD, 26, 7, 48, 52, 26), 0);
    expect("its score", judge_unpack(answer).score, 190);
    expect("no revoke", (long)judge_unpack(answer).revokes, 0);
    expect("the list", memcmp(revokes, all_fives, 80), 0);
    expect("the failure", memcmp(failures, LOW_CARD_FAILURE, 2), 0);
    expect("one failure", (long)judge_count_failures(failures), 1);
    expect("zeros behind it", memcmp(failures + 2, ZEROS, 50), 0);
    expect("the bytes behind them", memcmp(failures + 52, all_fives, 28), 0);
    expect("N wins", (long)judge_unpack_trick(winners, 1).winner, 0);
    expect("with C2", (long)judge_unpack_trick(winners, 1).card, 0);
    expect("the bytes of the other tricks", memcmp(winners + 2, all_fives, 38), 0);
}

static void refuses_short_buffers(void) {
    fill();
    expect("answer of 6", judged(PASSED_OUT, 20, 6, 48, 52, 26), 1024);
    expect("answer of 0", judged(PASSED_OUT, 20, 0, 48, 52, 26), 1024);
    expect("list of 47", judged(PASSED_OUT, 20, 7, 47, 52, 26), 1025);
    expect("failures of 51", judged(PASSED_OUT, 20, 7, 48, 51, 26), 1026);
    expect("winners of 25", judged(PASSED_OUT, 20, 7, 48, 52, 25), 1027);
    expect("answer and list short", judged(PASSED_OUT, 20, 6, 47, 52, 26), 1024);
    expect("list and failures short", judged(PASSED_OUT, 20, 7, 47, 51, 26), 1025);
    expect("failures and winners short", judged(PASSED_OUT, 20, 7, 48, 51, 25), 1026);
    expect("all short", judged(PASSED_OUT, 20, 6, 47, 51, 25), 1024);
    expect_untouched("buffers that are too short");
}

static void takes_null_pointers(void) {
    fill();
    expect("null record", judged_whole(NULL, 0), 2 * 1024);
    expect("null answer", (long)judge_record(PASSED_OUT, 20, NULL, 0, revokes, 80, failures, 80, winners, 40), 1024);
    expect("null list", (long)judge_record(PASSED_OUT, 20, answer, 40, NULL, 0, failures, 80, winners, 40), 1025);
    expect("null failures", (long)judge_record(PASSED_OUT, 20, answer, 40, revokes, 80, NULL, 0, winners, 40), 1026);
    expect("null winners", (long)judge_record(PASSED_OUT, 20, answer, 40, revokes, 80, failures, 80, NULL, 0), 1027);
    expect("null record and list", (long)judge_record(NULL, 0, answer, 40, NULL, 0, failures, 80, winners, 40), 1025);
    expect("all null", (long)judge_record(NULL, 0, NULL, 0, NULL, 0, NULL, 0, NULL, 0), 1024);
    expect_untouched("buffers beside null pointers");
}

/* Board 1, table 1, the passed-out deal, five calls: 1 club, three passes, 1 club. */
static const uint8_t LOW_AFTER_END[20] = {0x02, 0x01, 0x00, 0x00, 0x00, 0x15, 0x55, 0x55, 0x5A, 0xAA,
                                          0xAA, 0xAB, 0xFF, 0xFF, 0xFF, 0x02, 0x86, 0x00, 0x00, 0x06};

/* A number is no rank: 3 comes before the 2 of a later field, and 8 before 6. */
static void checks_in_order(void) {
    const uint8_t board_0[2] = {0x00, 0x01};
    fill();
    expect("board 0", judged_whole(board_0, 2), 3 * 1024);
    expect("a low bid after the end", judged_whole(LOW_AFTER_END, 20), 8 * 1024 + 4);
    expect_untouched("buffers after a refusal in order");
}

static uint8_t record[40], holders[53], four_passes[4];

/* Writes the passed-out board for the given board and table in a buffer of so many bytes. */
static long passed_out(uint32_t board, uint32_t table, size_t room) {
    return (long)judge_write_record(board, table, holders, 52, four_passes, 4, NULL, 0, 0, 0, record, room);
}

static void fill_to_write(void) {
    fill();
    memset(record, 0x55, sizeof record);
    for (size_t card = 0; card < 52; card++) holders[card] = (uint8_t)(card / 13);
}

static void writes_the_example(void) {
    fill_to_write();
    expect("the example written", passed_out(1, 1, 20), 20);
    expect("its bytes", memcmp(record, PASSED_OUT, 20), 0);
    expect("the bytes behind it", memcmp(record + 20, all_fives, 20), 0);
    fill_to_write();
    expect("the example in a longer buffer", passed_out(1, 1, 40), 20);
    expect("the longer buffer", memcmp(record, PASSED_OUT, 20) != 0 || memcmp(record + 20, all_fives, 20) != 0, 0);
}

/* The contents of LOW_CARD, with the code among the cards. */
static void writes_a_code(void) {
    const uint8_t one_club[4] = {3, 0, 0, 0}, cards[7] = {52, 15, 0, 14, 26, 39, 0};
    fill_to_write();
    expect("a code written", (long)judge_write_record(1, 1, holders, 52, one_club, 4, cards, 7, 1, 12, record, 26), 26);
    expect("its bytes", memcmp(record, LOW_CARD, 26), 0);
}

static void refuses_to_write(void) {
    fill_to_write();
    expect("a buffer of 19", passed_out(1, 1, 19), 22 * 1024);
    expect("board 128, table 512, no room", passed_out(128, 512, 0), 3 * 1024);
    expect("table 512", passed_out(127, 512, 40), 3 * 1024 + 1);
    holders[51] = 4;
    expect("a holder over 3", passed_out(1, 1, 40), 4 * 1024 + 4);
    holders[51] = 0;
    expect("fourteen cards for N", passed_out(1, 1, 40), 4 * 1024);
    fill_to_write();
    expect("53 holders", (long)judge_write_record(1, 1, holders, 53, four_passes, 4, NULL, 0, 0, 0, record, 40), 4 * 1024 + 4);
    expect("a card when passed out", (long)judge_write_record(1, 1, holders, 52, four_passes, 4, holders, 1, 0, 0, record, 40), 10 * 1024 + 1);
    expect("a claim when passed out", (long)judge_write_record(1, 1, holders, 52, four_passes, 4, NULL, 0, 256, 0, record, 40), 14 * 1024);
    expect("null holders", (long)judge_write_record(1, 1, NULL, 0, four_passes, 4, NULL, 0, 0, 0, record, 40), 4 * 1024 + 4);
    expect("null calls", (long)judge_write_record(1, 1, holders, 52, NULL, 0, NULL, 0, 0, 0, record, 40), 9 * 1024);
    /* A code without a card after it is 26; with a card, that is one too many here. */
    const uint8_t codes[4] = {52, 13, 1, 13};
    expect("a code when passed out", (long)judge_write_record(1, 1, holders, 52, four_passes, 4, codes, 3, 0, 0, record, 40), 26 * 1024);
    expect("a code and a card", (long)judge_write_record(1, 1, holders, 52, four_passes, 4, codes, 4, 0, 0, record, 40), 10 * 1024 + 1);
    expect("null buffer", (long)judge_write_record(1, 1, holders, 52, four_passes, 4, NULL, 0, 0, 0, NULL, 0), 22 * 1024);
    expect("the buffer after a refusal", memcmp(record, all_fives, sizeof record), 0);
}

/* samples/claim-best-play.txt: S leads H2, which nobody can follow, and W has the three clubs that are left: one of the four tricks. */
static const uint8_t ENDING[48] = {
    0x02, 0x03, 0x2A, 0x54, 0x0F, 0xD0, 0x3F, 0xA9, 0x59, 0x50, 0x3F, 0xAB, 0xFE, 0xA5, 0x40, 0x02,
    0x0E, 0x00, 0x00, 0x48, 0xCA, 0x88, 0x9C, 0xC2, 0xA9, 0x1E, 0xBA, 0xC9, 0xA1, 0x75, 0x74, 0x67,
    0x95, 0xF6, 0x53, 0x8E, 0x16, 0xD4, 0xF3, 0x73, 0x43, 0x2C, 0x4F, 0xB9, 0x24, 0x70, 0x3B, 0x20,
};

static void asks_best_play(void) {
    expect("one of four tricks", (long)judge_best_play(ENDING, sizeof ENDING), 1);
    expect("the same without its claim", (long)judge_best_play(ENDING, sizeof ENDING - 1), 1);
    expect("the same without its last card", (long)judge_best_play(ENDING, sizeof ENDING - 2), 2 * 1024);
    expect("a passed-out board", (long)judge_best_play(PASSED_OUT, 21), 31 * 1024);
    expect("48 cards left", (long)judge_best_play(LOW_CARD, 26), 31 * 1024);
    expect("a low bid after the end", (long)judge_best_play(LOW_AFTER_END, 20), 8 * 1024 + 4);
    expect("null record for best play", (long)judge_best_play(NULL, 0), 2 * 1024);
}

/* The passed-out board in Portable Bridge Notation, its four lines apart. */
#define BOARD "[Board \"1\"]\n"
#define DEAL "[Deal \"N:...AKQJT98765432 ..AKQJT98765432. .AKQJT98765432.. AKQJT98765432...\"]\n"
#define AUCTION "[Auction \"N\"]\n"
#define PASSES "Pass Pass Pass Pass\n"

/* Reads a text for a table into a buffer of so many bytes. */
static long read_text(const char *text, uint32_t table, size_t room) {
    return (long)judge_read_pbn((const uint8_t *)text, strlen(text), table, record, room);
}

static void reads_a_text(void) {
    fill_to_write();
    expect("the example read", read_text(BOARD DEAL AUCTION PASSES, 1, 20), 20);
    expect("its bytes", memcmp(record, PASSED_OUT, 20), 0);
    expect("the bytes behind it", memcmp(record + 20, all_fives, 20), 0);
    fill_to_write();
    expect("a text without its last newline", read_text(BOARD DEAL AUCTION "Pass Pass Pass Pass", 1, 40), 32 * 1024 + 4);
    expect("a text without calls", read_text(BOARD DEAL AUCTION, 0, 0), 32 * 1024 + 4);
    expect("table 0", read_text(BOARD DEAL AUCTION PASSES, 0, 40), 3 * 1024 + 1);
    expect("table 512", read_text(BOARD DEAL AUCTION PASSES, 512, 40), 3 * 1024 + 1);
    expect("the greatest table", read_text(BOARD DEAL AUCTION PASSES, UINT32_MAX, 40), 3 * 1024 + 1);
    expect("another dealer", read_text(BOARD DEAL "[Auction \"S\"]\n" PASSES, 1, 40), 32 * 1024 + 3);
    expect("five passes", read_text(BOARD DEAL AUCTION PASSES "Pass\n", 1, 40), 8 * 1024 + 4);
    expect("three passes", read_text(BOARD DEAL AUCTION "Pass Pass Pass\n", 1, 40), 9 * 1024 + 3);
    expect("no Play", read_text(BOARD DEAL AUCTION "1C Pass Pass Pass\n", 1, 40), 32 * 1024 + 5);
    expect("a buffer of 19", read_text(BOARD DEAL AUCTION PASSES, 1, 19), 22 * 1024);
    expect("null text", (long)judge_read_pbn(NULL, 0, 1, record, 40), 32 * 1024 + 1);
    expect("a null buffer", (long)judge_read_pbn((const uint8_t *)BOARD DEAL AUCTION PASSES, strlen(BOARD DEAL AUCTION PASSES), 1, NULL, 0), 22 * 1024);
    expect("the buffer after a refused text", memcmp(record, all_fives, sizeof record), 0);
}

/* Law 2, and where the score of the passed-out board and of the low card come from: 1 club made with six overtricks is 20, 120 and 50. */
static void knows_boards_and_slips(void) {
    static const char SLIP[] = "TRICKS 20\nOVERTRICKS 120\nPARTSCORE 50\nSUM 190\n";
    static uint8_t text[80];
    const size_t length = sizeof SLIP - 1;
    expect("the dealer of board 1", (long)judge_dealer(1), 0);
    expect("the dealer of board 127", (long)judge_dealer(127), 2);
    expect("no board", (long)judge_dealer(0), 3 * 1024);
    expect("board 128", (long)judge_dealer(128), 3 * 1024);
    expect("none vulnerable", (long)judge_vulnerable(1), JUDGE_NONE_VULNERABLE);
    expect("NS vulnerable", (long)judge_vulnerable(2), JUDGE_NS_VULNERABLE);
    expect("EW vulnerable", (long)judge_vulnerable(3), JUDGE_EW_VULNERABLE);
    expect("both vulnerable", (long)judge_vulnerable(4), JUDGE_BOTH_VULNERABLE);
    expect("board 256", (long)judge_vulnerable(256), 3 * 1024);
    memset(text, 0x55, sizeof text);
    expect("a slip", (long)judge_slip(LOW_CARD, 26, text, length), (long)length);
    expect("its bytes", memcmp(text, SLIP, length), 0);
    expect("the bytes behind it", memcmp(text + length, all_fives, sizeof text - length), 0);
    memset(text, 0x55, sizeof text);
    expect("a buffer that is too short", (long)judge_slip(LOW_CARD, 26, text, length - 1), 22 * 1024);
    expect("a refused record", (long)judge_slip(LOW_CARD, 25, text, sizeof text), 2 * 1024);
    expect("a refused record and no buffer", (long)judge_slip(LOW_CARD, 25, NULL, 0), 2 * 1024);
    expect("no buffer", (long)judge_slip(LOW_CARD, 26, NULL, 0), 22 * 1024);
    expect("a null record for a slip", (long)judge_slip(NULL, 0, text, sizeof text), 2 * 1024);
    expect("the buffer after refusals", memcmp(text, all_fives, sizeof text), 0);
    expect("the longest slip", JUDGE_SLIP_MOST, 72);
}

int main(void) {
    unpacks_the_answer();
    unpacks_the_largest();
    unpacks_a_revoke();
    unpacks_failures();
    unpacks_tricks();
    numbers_the_game();
    unpacks_a_number();
    judges_the_example();
    judges_a_failure();
    refuses_short_buffers();
    takes_null_pointers();
    checks_in_order();
    writes_the_example();
    writes_a_code();
    refuses_to_write();
    asks_best_play();
    reads_a_text();
    knows_boards_and_slips();
    return failed;
}
