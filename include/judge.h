/* The judge and the writer of table records of duplicate bridge, what best play would give from one, where its score comes from, a record from a game in
 * Portable Bridge Notation, and the dealer and the vulnerability of a board, for C99 and C++.
 *
 * The library has seven functions: judge_record, judge_write_record, judge_best_play, judge_read_pbn, judge_slip, judge_dealer and judge_vulnerable.
 * docs/RULES.md has the record's layout and the rules.
 *
 * Proved, of the library's source: what this header says that they return, write and leave, for every record, all contents, every text
 * and every buffer. Not proved, and tried by tests: the compiler's work on that source, and all else in this header, which is plain C. */
#ifndef JUDGE_H
#define JUDGE_H

#include <stddef.h>
#include <stdint.h>

/* The version of this interface. What a caller can see by the arguments that it gave before raises the first number: a changed signature or size, another
 * answer, number or place, other bytes written, also where no signature changes. A function, a helper, a name or a refusal more, for what no caller could ask
 * before, raises the second. */
#define JUDGE_VERSION_MAJOR 4
#define JUDGE_VERSION_MINOR 3

#ifdef __cplusplus
extern "C" {
#endif

/* The least lengths of the four buffers, and a number of bytes that no accepted record exceeds: this too is proved. */
enum { JUDGE_ANSWER_BYTES = 7, JUDGE_REVOKE_BYTES = 48, JUDGE_FAILURE_BYTES = 52, JUDGE_WINNER_BYTES = 26, JUDGE_RECORD_MOST = 505 };

/* No slip has more bytes. */
enum { JUDGE_SLIP_MOST = 72 };

/* Judges one table record.
 *
 * Returns 0 if the record is accepted. Then
 *   - seven bytes of `answer` are filled;
 *   - one byte of `revokes` is filled for each revoke, in order of play;
 *   - 52 bytes of `failures` are written: two for each play against Law 50C or 50D1, which Law 52 calls a failure to play a penalty
 *     card, in order of play, and zeros behind them, also where there is none;
 *   - two bytes of `winners` are filled for each trick that has four cards, trick by trick: the seat that won, and the card that won;
 *   - the other bytes of the four buffers stay as they were, those of tricks without four cards too.
 * Otherwise returns refusal * 1024 + place, and no byte of any buffer is changed. The record is never changed. Nothing is kept between
 * calls, so calls may run at the same time.
 *
 * No record and no length is trusted. What C has to see to is this, and nothing else:
 *   - each pointer has as many bytes as the length beside it says, the four buffers writable;
 *   - no two of the five overlap.
 * A null pointer beside the length 0 meets both: nothing is read or written through it. A null record is refused with 2, a null buffer
 * with 1. */
uint32_t judge_record(const uint8_t *record, size_t record_len, uint8_t *answer, size_t answer_len, uint8_t *revokes,
                      size_t revokes_len, uint8_t *failures, size_t failures_len, uint8_t *winners, size_t winners_len);

/* Writes one table record from its contents: the board, the table, the seat that was dealt card 0, 1, .. 51, the codes of the calls and
 * of the cards in their order, and a claim. Among the calls, JUDGE_MARK, 38, marks the next one as an insufficient bid that was accepted.
 * Among the cards, 52, a card and a bit say that a defender's card was exposed before the next card was played, 1 for deliberately; 53, a
 * kind and a suit that declarer requires (0) or forbids (1) the suit for the defender's lead that is the next card. `marked` 0 is no
 * claim, anything else a claim of `claim` tricks for declarer's side.
 *
 * Returns the number of bytes written, at most JUDGE_RECORD_MOST: the record stands at the front of `record`, and the bytes behind it
 * stay as they were. judge_record accepts what is written; and the contents of any record that it accepts are written as the same bytes
 * again. Otherwise returns refusal * 1024 + place, and no byte is changed. So a number from 1024 on is a refusal, and one below it is not.
 *
 * No number and no length is trusted. Contents that judge_record would refuse are refused as it does, with the same number and place in
 * the same order; 1, 2 and 16 do not occur. Of numbers that no record can hold: a board over 127 or a table over 511 is 3; a holder over 3,
 * or another number of holders than 52, is 4 with place 4, before the cards of each seat are counted; more than 511 codes of calls are 33
 * with place 511, before any of them is looked at; a code over 63 is 5 or 11; over 63 cards are 10 with place 63; an exposed number over
 * 51 is 25, and a suit over 3 is 26; a claim over 15 is 15 with place 15. A 52 or 53 with fewer than two numbers behind it, with a bit or
 * kind over 1, or with no card after it in the list is 26 with the number of cards before it as its place, directly after 27. Last comes
 * 22, for a buffer that is too short.
 *
 * What C has to see to is what it has to for judge_record, of these four slices: true lengths, the buffer writable and apart from the
 * other three. A null pointer beside the length 0 is taken. Nothing is kept between calls. */
uint32_t judge_write_record(uint32_t board, uint32_t table, const uint8_t *holders, size_t holders_len, const uint8_t *calls,
                            size_t calls_len, const uint8_t *cards, size_t cards_len, uint32_t marked, uint32_t claim,
                            uint8_t *record, size_t record_len);

/* Says what best play would give from a record's last card on, at a trick's end with at most sixteen cards left: how many of the tricks
 * left declarer's side takes if all hands are seen, suit is followed where possible, nothing else binds, and each side plays its best.
 *
 * Returns the tricks, 0 to 4, and no more than are left. Otherwise returns refusal * 1024 + place: first what judge_record refuses the
 * record with up to its last card, with the same number and place in the same order; then 31, where the board is passed out, more than
 * sixteen cards are left or a trick is under way. A claim, padding and bytes behind the last card are not looked at, so 1, 13 to 16, and
 * the 2 of a claim do not occur. After all 52 cards the answer is 0.
 *
 * It takes longest with four tricks left; docs/PERFORMANCE.md has what was measured.
 *
 * No record and no length is trusted. C has to see to it that the pointer has as many bytes as the length says; a null pointer beside the
 * length 0 is refused with 2. Nothing is written, and nothing is kept between calls. */
uint32_t judge_best_play(const uint8_t *record, size_t record_len);

/* Writes the record of one game in Portable Bridge Notation, for the table given beside it. The text has to be of the subset of PBN 2.1
 * that docs/RULES.md, 15, has line by line: the tags Board, Deal, Auction and its calls, and, unless passed out, Play and its cards, in
 * this order, nothing else, each line ended by a newline. The Deal tag may start from any seat. Play has columns from its tag's seat on;
 * the record has the cards in order of play.
 *
 * Returns the number of bytes written, 20 to 296: the record stands at the front of `record`, and the bytes behind it stay as they were.
 * It is what judge_write_record writes for the same deal, calls and cards, without a mark, a code or a claim, so judge_record accepts it.
 * Otherwise returns refusal * 1024 + place, and no byte is changed. So a number from 1024 on is a refusal, and one below it is not.
 *
 * One refusal is returned, the first that applies in this order:
 *   - 32, for a text that is not of the subset, all of it. The place is the first line, from 1, up to which no text of the subset agrees,
 *     a missing line included, and 1023 where that is more;
 *   - 3, for a board from 128 to 999 (place 0), then for a table that is 0 or over 511 (place 1);
 *   - 32 with place 3, where the Auction tag names another seat than the board's dealer;
 *   - 4, for the first of N, E, S, W without thirteen cards, wherever the Deal tag starts;
 *   - 33 with place 511, for more than 511 calls;
 *   - for each call in turn 8, then 6 or 7; after the last call 9;
 *   - 32, where there is a contract and no Play tag, or four passes and one, or it names another seat than the opening leader. The place
 *     is the line after the last line of calls, where the tag stands or should;
 *   - 12 or 23, for each card in turn, in order of play;
 *   - 22, for a buffer that is too short.
 * No other number occurs. 296 bytes have room for every record that a text can give.
 *
 * No text, no table and no length is trusted. What C has to see to is true lengths, and a buffer that is writable and apart from the
 * text. A null pointer beside the length 0 is taken. Nothing is kept between calls. */
uint32_t judge_read_pbn(const uint8_t *text, size_t text_len, uint32_t table, uint8_t *record, size_t record_len);

/* Writes the slip of a record, which says where its score comes from: the items that Law 77 grants the contract with its tricks after Law 64, a line each, and
 * their sum, signed for NS, as docs/RULES.md, 14, has it: `TRICKS -80`, .. `SUM -280`, each line ended by a newline, no zero behind them. A passed-out board
 * has `SUM 0` alone.
 *
 * Returns the number of bytes written, at most JUDGE_SLIP_MOST: they stand at the front of `text`, and the bytes behind them stay as they were. Otherwise
 * returns refusal * 1024 + place, and no byte is changed: what judge_record refuses the record with, given buffers that are long enough; then 22, for a text
 * buffer that is too short. So a number from 1024 on is a refusal, and one below it is not.
 *
 * No record and no length is trusted. What C has to see to is true lengths, and a buffer that is writable and apart from the record. A null pointer beside the
 * length 0 is taken. Nothing is kept between calls. */
uint32_t judge_slip(const uint8_t *record, size_t record_len, uint8_t *text, size_t text_len);

/* Law 2: the dealer of a board, a seat from 0 to 3; and its vulnerable sides, JUDGE_NONE_VULNERABLE to JUDGE_BOTH_VULNERABLE. A number that is not 1 to 127 is
 * refused with 3, place 0. */
uint32_t judge_dealer(uint32_t board);
uint32_t judge_vulnerable(uint32_t board);

/* The vulnerable sides. */
enum { JUDGE_NONE_VULNERABLE = 0, JUDGE_NS_VULNERABLE = 1, JUDGE_EW_VULNERABLE = 2, JUDGE_BOTH_VULNERABLE = 3 };

/* The refusals by number. Calls and plays count from 0, lines from 1; a mark counts among the calls, and takes no turn; an exposure or a choice does not
 * count among the plays, and its place is that of the card that it stands before.
 *
 * The number is no rank. One refusal is returned, for a record the first that applies in this order:
 *   - the buffers: 1, for the answer, then for the revokes, then for the failures, then for the winners;
 *   - board and table: both are read (2 where the record ends), then 3, for the board, then for the table;
 *   - the deal: it is read whole (2), then 4;
 *   - the number of calls (2); then for each code in turn: it is read (2), then 5, then 8, then 24 after a mark, else 6 or 7;
 *     after the last code 9;
 *   - the number of cards (2), then 10; then for each card in turn, with the exposures and choices before it: six bits are read (2), then
 *     11; of a 52 or 53, 27, then its other bits are read (2), then 25 or 26; of a card, 12 or 23;
 *   - the claim's mark (2); unmarked, 13; marked, 14, then the claim is read (2), then 15;
 *   - 16.
 * So the record 00 01 is refused with 3 and not with 2, and a bid after the end that is too low as well with 8 and not with 6. */
enum judge_refusal {
    JUDGE_ACCEPTED = 0,
    JUDGE_BUFFER_TOO_SHORT = 1,      /* place 0: answer under 7 bytes; 1: revokes under 48; 2: failures under 52; 3: winners under 26 */
    JUDGE_RECORD_ENDS = 2,           /* the record ends before a field is whole; place 0 */
    JUDGE_NO_BOARD_OR_TABLE = 3,     /* place 0: board 0, or over 127; 1: table 0, or over 511 */
    JUDGE_NOT_THIRTEEN_CARDS = 4,    /* Law 1; place: the first such seat; 4: not 52 holders from 0 to 3 */
    JUDGE_NO_SUCH_CALL = 5,          /* call code from 39 on; place: the call */
    JUDGE_INSUFFICIENT_BID = 6,      /* Law 27: bid without a mark not above the last bid; place: the call */
    JUDGE_DOUBLE_NOT_ALLOWED = 7,    /* Law 36: double or redouble not allowed; place: the call */
    JUDGE_CALL_AFTER_END = 8,        /* Law 39; place: the call */
    JUDGE_AUCTION_NOT_OVER = 9,      /* Law 22; place: the number of calls */
    JUDGE_PLAY_COUNT = 10,           /* over 52, or over 0 when passed out; place: the play count, at most 63 */
    JUDGE_NO_SUCH_CARD = 11,         /* card code from 54 on; place: the play */
    JUDGE_CARD_NOT_HELD = 12,        /* Law 44: card dealt to another seat; place: the play */
    JUDGE_PLAY_UNFINISHED = 13,      /* a contract, no claim, under 52 cards; place: the play count */
    JUDGE_CLAIM_NOT_ALLOWED = 14,    /* Law 68: claim after no card or all 52, or passed out; place: the play count */
    JUDGE_CLAIM_TOO_HIGH = 15,       /* Law 68: more tricks than are left; place: the claim, at most 15 */
    JUDGE_NOT_PADDING = 16,          /* a padding bit is 1, or a byte follows; place 0 */
    JUDGE_NO_ROOM_FOR_RECORD = 22,   /* judge_write_record, judge_read_pbn and judge_slip: the buffer is too short for what is written; place 0 */
    JUDGE_CARD_ALREADY_PLAYED = 23,  /* Law 44: card that this seat has played already; place: the play */
    JUDGE_MARK_NOT_ALLOWED = 24,     /* Law 27A: mark not followed by a bid at or below a last bid; place: the mark */
    JUDGE_EXPOSURE_NOT_ALLOWED = 25, /* Law 48: exposed is no card in a defender's hand, or is faced already; place: the play */
    JUDGE_CHOICE_NOT_OPEN = 26,      /* Law 50D2: choice for a lead that is not open; writing, a code that is broken or has no card after it; place: the play */
    JUDGE_TOO_MANY_CODES = 27,       /* more than 40 exposures and choices; place: the play */
    JUDGE_NO_ENDING = 31,            /* judge_best_play alone: passed out, more than 16 cards left, or not at a trick's end; place 0 */
    JUDGE_OUTSIDE_SUBSET = 32,       /* judge_read_pbn alone: outside the subset; another dealer; Play's presence or leader; place: the line, at most 1023 */
    JUDGE_TOO_MANY_CALLS = 33,       /* judge_write_record and judge_read_pbn: more than 511 codes of calls; place 511 */

    /* Other names of three of them, which the next first number leaves out. */
    JUDGE_BID_NOT_ABOVE = JUDGE_INSUFFICIENT_BID,
    JUDGE_CARDS_MISSING = JUDGE_PLAY_UNFINISHED,
    JUDGE_NOT_ENDED = JUDGE_NOT_PADDING
};

/* Whether what one of the functions returned is a refusal. */
static inline int judge_is_refusal(uint32_t number) { return number >= 1024u; }

/* The two parts of a refusal. */
static inline enum judge_refusal judge_refusal_of(uint32_t number) { return (enum judge_refusal)(number / 1024u); }
static inline unsigned judge_place_of(uint32_t number) { return (unsigned)(number % 1024u); }

/* Numbers of the game. Seats: N 0, E 1, S 2, W 3. Suits: clubs 0, diamonds 1, hearts 2, spades 3; strains: these, and notrump 4. Ranks: the two 0, .. the ace
 * 12. Levels: 1 to 7. Calls: pass 0, double 1, redouble 2, and the bids. */
enum { JUDGE_PASS = 0, JUDGE_DOUBLE = 1, JUDGE_REDOUBLE = 2, JUDGE_FIRST_BID = 3 };

/* Among the calls, the mark of an insufficient bid that was accepted; among the cards, the first number of an exposure and that of a choice. */
enum { JUDGE_MARK = 38, JUDGE_EXPOSED = 52, JUDGE_CHOICE = 53 };

/* What stands for no call, no card, and no strain, suit or rank; as a call it is refused with 5, as a card with 11. */
enum { JUDGE_NONE = 63 };

/* The code of a bid by its level and strain, and back. JUDGE_NONE for what is no level or strain; level 0, and JUDGE_NONE for the strain, for what is no
 * bid. */
static inline unsigned judge_call(unsigned level, unsigned strain) {
    return level >= 1 && level <= 7 && strain <= 4 ? JUDGE_FIRST_BID + 5 * (level - 1) + strain : (unsigned)JUDGE_NONE;
}
static inline unsigned judge_level_of(unsigned call) { return call >= JUDGE_FIRST_BID && call < JUDGE_MARK ? (call - JUDGE_FIRST_BID) / 5 + 1 : 0; }
static inline unsigned judge_strain_of(unsigned call) {
    return call >= JUDGE_FIRST_BID && call < JUDGE_MARK ? (call - JUDGE_FIRST_BID) % 5 : (unsigned)JUDGE_NONE;
}

/* The code of a card by its suit and rank, and back. JUDGE_NONE for what is no suit or rank, or no card. */
static inline unsigned judge_card(unsigned suit, unsigned rank) { return suit <= 3 && rank <= 12 ? 13 * suit + rank : (unsigned)JUDGE_NONE; }
static inline unsigned judge_suit_of(unsigned card) { return card < JUDGE_EXPOSED ? card / 13 : (unsigned)JUDGE_NONE; }
static inline unsigned judge_rank_of(unsigned card) { return card < JUDGE_EXPOSED ? card % 13 : (unsigned)JUDGE_NONE; }

/* What was judged. */
struct judge_judgement {
    unsigned board;           /* 1 to 127 */
    unsigned table;           /* 1 to 511 */
    unsigned level;           /* 1 to 7, or 0 if passed out; then all below are 0 */
    unsigned strain;
    unsigned doubling;        /* 0, 1 doubled, 2 redoubled */
    unsigned declarer;        /* seat */
    unsigned tricks;          /* won by declarer's side */
    unsigned tricks_after_64; /* the same after Law 64 */
    unsigned revokes;         /* bytes filled in the list */
    int score;                /* for NS */
};

/* The seven bytes of an accepted record, apart. */
static inline struct judge_judgement judge_unpack(const uint8_t answer[JUDGE_ANSWER_BYTES]) {
    struct judge_judgement j;
    unsigned score = (unsigned)answer[5] << 8 | answer[6];
    j.board = answer[0] >> 1;
    j.table = (answer[0] & 1u) << 8 | answer[1];
    j.level = answer[2] >> 5;
    j.strain = answer[2] >> 2 & 7u;
    j.doubling = answer[2] & 3u;
    j.declarer = answer[3] >> 6;
    j.tricks = answer[3] >> 2 & 15u;
    j.tricks_after_64 = (answer[3] & 3u) << 2 | answer[4] >> 6;
    j.revokes = answer[4] & 63u;
    j.score = (int)score - (score >= 0x8000u ? 0x10000 : 0);
    return j;
}

struct judge_revoke {
    unsigned trick; /* 1 to 13 */
    unsigned seat;
    unsigned suit;  /* following, the suit led; leading, the suit required, or the forbidden suit that was led */
};

/* One byte of the list of revokes, apart. */
static inline struct judge_revoke judge_unpack_revoke(uint8_t byte) {
    struct judge_revoke r;
    r.trick = byte >> 4;
    r.seat = byte >> 2 & 3u;
    r.suit = byte & 3u;
    return r;
}

/* A play against Law 50C or 50D1. */
struct judge_failure {
    unsigned trick; /* 1 to 12, since a hand of one card has no other to play; 0 behind the last entry, and then all is 0 */
    unsigned seat;
    unsigned card;  /* the card played */
};

/* Entry 0, 1, .. 25 of the failures of an accepted record, apart. */
static inline struct judge_failure judge_unpack_failure(const uint8_t failures[JUDGE_FAILURE_BYTES], unsigned entry) {
    struct judge_failure f;
    unsigned word = (unsigned)failures[2 * entry] << 8 | failures[2 * entry + 1];
    f.trick = word >> 12;
    f.seat = word >> 10 & 3u;
    f.card = word >> 4 & 63u;
    return f;
}

/* The number of entries: those before the first with trick 0. */
static inline unsigned judge_count_failures(const uint8_t failures[JUDGE_FAILURE_BYTES]) {
    unsigned count = 0;
    while (count < JUDGE_FAILURE_BYTES / 2 && judge_unpack_failure(failures, count).trick > 0) count++;
    return count;
}

/* A complete trick. */
struct judge_trick {
    unsigned winner; /* seat */
    unsigned card;   /* the card that won */
};

/* Trick 1, 2, .. 13 of an accepted record, apart. Ask only for a trick that has four cards: the bytes of others are not the judge's. */
static inline struct judge_trick judge_unpack_trick(const uint8_t winners[JUDGE_WINNER_BYTES], unsigned trick) {
    struct judge_trick t;
    t.winner = winners[2 * trick - 2];
    t.card = winners[2 * trick - 1];
    return t;
}

#ifdef __cplusplus
}
#endif

#endif
