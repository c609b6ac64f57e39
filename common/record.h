/* Where the fields of an accepted record stand, and its bits one after another: docs/RULES.md, 3. */
#ifndef RECORD_H
#define RECORD_H

#include <stddef.h>
#include <stdint.h>

enum {
    BOARD_AND_TABLE_BYTES = 2,
    DEAL_BYTES = 13,
    CALL_COUNT_AT = 8 * (BOARD_AND_TABLE_BYTES + DEAL_BYTES), /* bits before the number of calls */
    CALL_COUNT_BITS = 9,
    CODE_BITS = 6, /* of a call, a card, and the number of cards */
    EXPOSURE_BITS = 1,
    CHOICE_KIND_BITS = 2,
    SUIT_BITS = 2
};

/* The bits of a record from `next` on. */
struct bits {
    const uint8_t *record;
    size_t next;
};

/* The next field, of so many bits. The record has to have them, as an accepted one has. */
static inline unsigned take_bits(struct bits *bits, unsigned width) {
    unsigned value = 0;
    for (; width > 0; width--, bits->next++) value = value << 1 | (bits->record[bits->next / 8] >> (7 - bits->next % 8) & 1u);
    return value;
}

/* The bits of the cards, behind the calls and the number of cards, which is given too. */
static inline struct bits cards_of(const uint8_t *record, unsigned *cards) {
    struct bits bits = {record, CALL_COUNT_AT};
    unsigned calls = take_bits(&bits, CALL_COUNT_BITS);
    bits.next += CODE_BITS * (size_t)calls;
    *cards = take_bits(&bits, CODE_BITS);
    return bits;
}

#endif
